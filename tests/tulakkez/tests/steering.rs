//! A dynamic variable that steers a call and comes back later (document 02, F-2): texts that run both ways, and those that are refused, each at
//! its place. Values and steps are worked out by hand: plus k n is k + n, in 4 steps and 8 for each of n.

use tulakkez::build::build;
use tulakkez::command::run;
use tulakkez::core::lay_out;
use tulakkez::core::read::read;
use tulakkez::show::show;
use tulakkez::text::Source;
use tulakkez_tests::carried::{carries, scratch, PLUS};
use tulakkez_tests::command::{root, tulakkez};
use tulakkez_tests::marked::refused;

const STEERED: &str = "a dynamic variable stands in an ancilla argument, and ";
const UNBOUND: &str = "no let binds the call";
const UNUSED: &str = "no let that binds the call uses it in its body";

fn bytes(text: &str) -> Vec<u8> {
    lay_out(&mut build(&Source::new("t", text)).expect("a program")).bytes
}

/// A function on two numbers that begins by naming them k and n carries the one pair to the other and back.
fn carries_two(body: &str, from: &str, to: &str) {
    carries(&format!("fun f (r : (Nat, Nat)) : (Nat, Nat) = let (k, n) = r in {body}"), &[], from, to);
}

/// The same function is refused with 8 at the mark, for this reason; all that is told.
fn refused_two(body: &str, why: &str) -> String {
    let text = format!("{PLUS}fun f (r : (Nat, Nat)) : (Nat, Nat) =\n  let (k, n) = r in\n  {body}");
    refused(&text, 8, &format!("{STEERED}{why}"))
}

#[test]
fn a_let_whose_body_uses_the_variable_helps() {
    carries_two("let y = plus k n in (k, y)", "(2, 3)", "(2, 5)");
    carries_two("let y = plus k n in (Succ k, y)", "(2, 3)", "(3, 5)");
    carries_two("let (y, u) = (plus k n, ()) in (k, y)", "(2, 3)", "(2, 5)");
    carries_two("let y = Succ (plus (plus k (Succ k)) n) in (k, y)", "(1, 3)", "(1, 7)");
    // The dynamic parameter itself; what is given for n is a constant, which the way back meets again.
    carries("fun f (k : Nat) : (Nat, Nat) = let y = plus k 1 in (k, y)", &[], "3", "(3, 4)");
    // As a case over a tuple is written, it begins with a let pair.
    carries_two("case (plus k n, ()) of (y, _) => (k, y)", "(2, 3)", "(2, 5)");
    // Each stroke has its own offset.
    let each = "type List = Nil | Cons (Nat, Nat) List\nfun f (l : List) : List =\n  case l of Nil => Nil | Cons (k, v) rest => let w = plus k v in Cons (k, w) (f rest)";
    carries(each, &[], "Cons (1, 2) (Cons (3, 0) Nil)", "Cons (1, 3) (Cons (3, 3) Nil)");
}

#[test]
fn any_let_around_the_call_will_do() {
    carries_two("let y = (let z = plus k n in z) in (k, y)", "(2, 3)", "(2, 5)");
    carries_two("let z = (let y = plus k n in plus k y) in (k, z)", "(2, 3)", "(2, 7)");
    carries_two("let y = plus k n in let z = plus k y in (k, z)", "(2, 3)", "(2, 7)");
    carries_two("let y = (case n of Zero => 0 | Succ m => Succ (plus k m)) in (k, y)", "(2, 3)", "(2, 5)");
}

/// Branches use the same variables, and naming is no use.
#[test]
fn one_branch_may_name_what_the_other_does_not() {
    let sided = "fun f (r : (Bool, Nat, Nat)) : (Nat, (Bool, Nat)) =\n  let (b, k, n) = r in let y = (case b of True => (True, plus k n) | False => (False, n)) in (k, y)";
    carries(sided, &[], "(True, 2, 3)", "(2, True, 5)");
    carries(sided, &[], "(False, 2, 3)", "(2, False, 3)");
}

/// What a pattern's name stands for is put together again, in the ancilla argument as in the body.
#[test]
fn a_name_for_several_alternatives_steers() {
    let rebuilt = "case (k, n) of (Zero, m) => (Zero, m) | (other, m) => let y = plus other m in (other, y)";
    carries_two(rebuilt, "(0, 3)", "(0, 3)");
    carries_two(rebuilt, "(2, 3)", "(2, 5)");
}

/// Variables that are bound in an ancilla argument are used there, and the rule holds among them.
#[test]
fn the_rule_holds_inside_an_ancilla_argument() {
    let inside = "fun beside (s : (Nat, Nat)) (n : Nat) : ((Nat, Nat), Nat) = (s, n)\nfun f (a : Nat) (x : Nat) : ((Nat, Nat), Nat) = beside (let k = a in let y = plus k a in (k, y)) x";
    carries(inside, &["2"], "1", "((2, 4), 1)");
}

/// Backward, a unit that the branch taken never met is unit where an ancilla argument names it.
#[test]
fn a_unit_that_was_never_met_is_unit() {
    let met_by_one = "fun beside (u : 1) (b : Bool) : (1, Bool) = (u, b)\nfun f (p : (1, Bool)) : (1, Bool) =\n  let (u, b) = p in let (w, c) = beside u b in case c of True => (u, True) | False => ((), False)";
    carries(met_by_one, &[], "((), True)", "((), True)");
    carries(met_by_one, &[], "((), False)", "((), False)");
}

#[test]
fn a_call_that_no_let_binds_is_refused_at_once() {
    let told = refused_two("(k, plus ~k n)", UNBOUND);
    let help = "  help: bind the call by a let whose body uses the variable, as in let y = f k n in (k, y), or take it as an ancilla parameter\n";
    assert!(told.ends_with(help) && !told.contains(": note: "), "{told}");
    // Nor does it help where the let's body holds the call, a case is over it, or it is the last argument of another call.
    refused_two("let y = n in (k, plus ~k y)", UNBOUND);
    refused_two("case plus ~k n of Zero => (k, Zero) | Succ m => (k, Succ m)", UNBOUND);
    refused_two("f (k, plus ~k n)", UNBOUND);
    let own = "fun f (a : Nat) (n : Nat) : Nat = f ~n n";
    refused(own, 8, &format!("{STEERED}{UNBOUND}"));
}

#[test]
fn a_body_that_does_not_use_the_variable_is_told_with_its_let() {
    let told = refused_two("let y = plus ~k n in (y, n)", UNUSED);
    let rest = "t.fun:7:3: note: the body of this let does not use it\n  7 |   let y = plus k n in (y, n)\n    |   ^^^^^\n  help: use it in that body, as in let y = f k n in (k, y), or take it as an ancilla parameter\n";
    assert!(told.ends_with(rest), "{told}");
    let told = refused_two("let (y, u) = (plus ~k n, ()) in (y, n)", UNUSED);
    assert!(told.contains("t.fun:7:3: note: the body of this let does not use it\n"), "{told}");
    let told = refused_two("case (plus ~k n, ()) of (y, _) => (y, n)", UNUSED);
    assert!(told.contains("t.fun:7:3: note: no arm of this case uses it\n"), "{told}");
    let own = "fun f (a : Nat) (n : Nat) : Nat = let y = f ~n 1 in y";
    refused(own, 8, &format!("{STEERED}{UNUSED}"));
}

#[test]
fn of_several_lets_the_nearest_is_told() {
    let told = refused_two("let z =\n    let y = plus ~k n in Succ y in\n  (z, n)", UNUSED);
    let note = "t.fun:8:5: note: the body of this let does not use it, nor does the body of a let around it\n";
    assert!(told.contains(note), "{told}");
}

/// A body that only names the variable does not use it: the naming in it is met first.
#[test]
fn naming_is_no_use() {
    refused_two("let y = plus k n in let z = plus ~k y in (z, n)", UNUSED);
    let sided = "fun f (r : (Bool, Nat, Nat, Nat)) : (Nat, Nat) =\n  let (b, k, n, m) = r in let y = (case b of True => plus k n | False => ~m) in (k, y)";
    refused(&format!("{PLUS}{sided}"), 8, "this arm does not use n, and another arm does");
}

#[test]
fn units_are_no_exception() {
    let unit = "fun g (u : 1) (n : Nat) : Nat = Succ n\nfun f (p : (1, Nat)) : Nat = let (u, n) = p in let y = g ~u n in y";
    refused(unit, 8, &format!("{STEERED}{UNUSED}"));
}

/// The variable of the let is not used either; the naming stands before the let in the program.
#[test]
fn of_several_places_the_lowest_is_told() {
    refused_two("let y = plus ~k n in (n, n)", UNUSED);
    refused_two("let (y, z) = (plus ~k n, plus k n) in (y, z)", UNUSED);
    let two = "fun f (r : (Nat, Nat, Nat)) : (Nat, Nat) =\n  let (j, k, n) = r in let (y, z) = (plus ~k n, plus j n) in (y, z)";
    refused(&format!("{PLUS}{two}"), 8, &format!("{STEERED}{UNUSED}"));
}

/// A naming waits for the bodies of the lets that could help, and what is wrong there comes first.
#[test]
fn what_is_wrong_in_the_body_comes_first() {
    let body =
        |body: &str| format!("{PLUS}fun f (r : (Nat, Nat)) : Nat = let (k, n) = r in let y = plus k n in {body}");
    refused(&body("Succ ~True"), 6, "this is Bool, and Nat is wanted");
    refused(&body("let ~z = y in 0"), 8, "z is not used");
    let around = "let x = (let y = plus k n in y) in Succ ~True";
    refused(&format!("{PLUS}fun f (r : (Nat, Nat)) : Nat = let (k, n) = r in {around}"), 6, "this is Bool");
}

/// The call that has the variable in an ancilla argument from outside is the one that a let must bind.
#[test]
fn lets_inside_an_ancilla_argument_do_not_help() {
    let text = "fun beside (s : (Nat, Nat)) (n : Nat) : Nat = n\nfun f (r : (Nat, Nat)) : Nat = let (k, n) = r in\n  beside (let y = plus ~k 1 in (k, y)) n";
    let told =
        refused(&format!("{PLUS}{text}"), 8, &format!("{STEERED}no let binds the outermost call around it"));
    let note =
        "t.fun:7:3: note: this is the call that a let must bind: it has the variable in an ancilla argument too\n";
    assert!(told.contains(note), "{told}");
    let bound = text.replace("  beside", "  let z = beside") + " in z";
    let why = "no let that binds the outermost call around it uses it in its body";
    refused(&format!("{PLUS}{bound}"), 8, &format!("{STEERED}{why}"));
}

/// Branches inside an ancilla argument have to agree on what is bound there, and only name what is bound outside.
#[test]
fn branches_inside_an_ancilla_argument_are_told_by_a_variable_of_their_own() {
    let text = "fun f (a : Nat) (q : Bool) (r : (Nat, Nat)) : (Nat, Nat) = let (k, n) = r in\n  let y = plus (let p = a in case q of True => ~k | False => p) n in (k, y)";
    refused(&format!("{PLUS}{text}"), 8, "this arm does not use p, and another arm does");
}

/// Backward the body is followed first: it brings k back before the call names it.
#[test]
fn a_run_back_that_is_followed_knows_the_variable() {
    let scratch = scratch("steering");
    let text = "type Nat = Zero | Succ Nat\nfun plus (k : Nat) (n : Nat) : Nat =\n  case n of Zero => k | Succ m => Succ (plus k m)\nfun shift (r : (Nat, Nat)) : (Nat, Nat) =\n  let (k, n) = r in\n  let y = plus k n in (k, y)\n";
    scratch.file("t.fun", text);
    let expected = [
        "      5:3 let pair: let (k, n) <- (1, 1)",
        "      6:3   let y <- (1, 1)",
        "     6:23     (k, y) <- (1, 1)",
        "     6:24       k <- 1",
        "     6:27       y <- 1",
        "     6:11     plus k n <- 1",
        "     6:16       k = 1",
        "      3:3       case n <- 1",
        "     3:21         k <- 1",
        "      3:8         unroll: n <- inl ()",
        "      3:8           n <- 0",
        "     6:18       n <- 0",
        "     5:16   r <- (1, 0)",
        "(1, 0)",
        "13 steps",
    ];
    let ran = tulakkez(&scratch.0, &["back", "t.fun", "shift", "(1, 1)", "--trace"]);
    assert_eq!(ran.out.lines().collect::<Vec<_>>(), expected, "{}", ran.err);
}

#[test]
fn a_program_that_is_steered_shows_as_text_that_builds_to_it() {
    let text = std::fs::read_to_string(root().join("examples/texts/steering.fun")).expect("the text");
    let built = bytes(&text);
    let shown = show(&mut read(&built).expect("a program"));
    assert_eq!(bytes(&shown), built, "{shown}");
}

/// A record that carries its own offset is converted and rolled back without an ancilla.
#[test]
fn a_journal_of_such_records_rolls_back() {
    let scratch = scratch("steering");
    let journal = scratch.0.join("j").to_string_lossy().into_owned();
    let text = root().join("examples/texts/steering.fun").to_string_lossy().into_owned();
    let (raw, raised) = ("(1, Cons (Fill, 7) Nil)", "(1, Cons (Fill, 8) Nil)");
    let answered = |words: &[&str]| {
        let words: Vec<String> = words.iter().map(|word| word.to_string()).collect();
        String::from_utf8(run(&words).answer.out).expect("text")
    };
    answered(&["open", &journal, &text, raw]);
    assert_eq!(answered(&["convert", &journal, "settle"]), format!("held {raised}\n93 steps\n"));
    assert_eq!(answered(&["rollback", &journal]), format!("held {raw}\n93 steps\n"));
}
