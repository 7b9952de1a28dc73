-- Records that keep an offset k beside their volumes. k is dynamic: it steers the calls, and comes back with what they give.
type Nat  = Zero | Succ Nat
type Kind = Fill | Drain
type List = Nil | Cons (Kind, Nat) List

fun plus (k : Nat) (n : Nat) : Nat =
  case n of Zero => k | Succ m => Succ (plus k m)

fun calibrate (k : Nat) (l : List) : List =
  case l of Nil => Nil | Cons (kind, v) rest => Cons (kind, plus k v) (calibrate k rest)

fun shift (r : (Nat, Nat)) : (Nat, Nat) =
  let (k, n) = r in
  let y = plus k n in (k, y)

fun settle (r : (Nat, List)) : (Nat, List) =
  let (k, strokes) = r in
  let raised = calibrate k strokes in (k, raised)

-- A let of a tuple: k steers both calls.
fun both (r : (Nat, Nat, Nat)) : (Nat, Nat, Nat) =
  let (k, v, w) = r in
  let (x, y) = (plus k v, plus (Succ k) w) in (k, x, y)

-- A let inside a let: the inner body only names k, the outer one uses it.
fun twice (r : (Nat, Nat)) : (Nat, Nat) =
  let (k, n) = r in
  let z = (let y = plus k n in plus k y) in (k, z)
