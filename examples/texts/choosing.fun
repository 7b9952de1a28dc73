-- The machine's model comes as an ancilla and chooses how a record is converted. Both arms give volumes of the same form: no result says which
-- arm made it, and none has to, since the way back is given the model too.
type Nat    = Zero | Succ Nat
type Bool   = True | False
type Kind   = Fill | Drain
type List   = Nil | Cons (Kind, Nat) List
type Model  = Hand | Motor
type Valve  = Plain | Offset Nat
type Speed  = Slow | Normal | Fast

fun plus (k : Nat) (n : Nat) : Nat =
  case n of Zero => k | Succ m => Succ (plus k m)

-- A motor keeps 2 of each stroke in its hose; the old firmware left them out.
fun volume (model : Model) (v : Nat) : Nat =
  case model of Hand => v | Motor => plus 2 v

fun strokes (model : Model) (l : List) : List =
  case l of Nil => Nil | Cons (kind, v) rest => Cons (kind, volume model v) (strokes model rest)

-- What an alternative holds is dynamic: it is used, and compared on the way back. Here it steers a call as well.
fun raise (valve : Valve) (v : Nat) : (Nat, Nat) =
  case valve of Plain => (0, v) | Offset k => let w = plus k v in (k, w)

-- A call that names ancillae alone chooses too.
fun fast (speed : Speed) (u : 1) : Bool =
  case speed of Slow => False | Normal => False | Fast => True

fun pace (speed : Speed) (v : Nat) : Nat =
  case fast speed () of True => plus 1 v | False => v

-- Document 01, P12: s is a part of the record, and q flipped is refused.
fun pair (p : (Bool, Bool)) : Bool =
  let (s, q) = p in
  case s of True => q | False => (case q of True => False | False => True)

-- The same with s as an ancilla: q flipped, and back.
fun flip (s : Bool) (q : Bool) : Bool =
  case s of True => q | False => (case q of True => False | False => True)
