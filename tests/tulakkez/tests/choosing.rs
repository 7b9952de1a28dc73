//! Cases that choose by an ancilla (document 02, F-3): texts that run both ways though their arms overlap, what is told of a case that first
//! match still holds of, and of a value that the chosen arm does not give. Values and steps are worked out by hand: plus k n is k + n, in 4 steps
//! and 8 for each of n, a number is 3 terms and 2 for each one.

use corefun::Refusal;
use second::calls::{Call, RunCall};
use second::make::Maker;
use tulakkez::build::build;
use tulakkez::command::{run, Converter};
use tulakkez::core::lay_out;
use tulakkez::core::read::read;
use tulakkez::engine::{self, Direction, Run};
use tulakkez::explain::explain;
use tulakkez::show::show;
use tulakkez::text::{Mistake, Source};
use tulakkez_tests::carried::{carries, scratch, PLUS};
use tulakkez_tests::command::{deep, root, tulakkez};
use tulakkez_tests::marked::run_refused;

const OVERLAP: &str =
    "an arm for a later alternative was taken, and its value is one that this arm may yield too\n";
const APART: &str =
    "  help: there would be no way back: let the arms of this case begin with different constructors";
const NOT_FROM_HERE: &str =
    "  help: the value did not come from this function with these ancillae; no fuel changes that\n";
const SAME: &str = "fun same (b : Bool) (u : 1) : Bool = case b of True => True | False => False\n";

/// Document 01's P12 with s as an ancilla.
const FLIP: &str = "fun f (s : Bool) (q : Bool) : Bool =\n  case s of True => q | False => (case q of True => False | False => True)";

#[test]
fn a_flag_is_flipped_by_an_ancilla_and_comes_back() {
    assert_eq!(carries(FLIP, &["True"], "True", "True"), "3 steps");
    assert_eq!(carries(FLIP, &["True"], "False", "False"), "3 steps");
    assert_eq!(carries(FLIP, &["False"], "True", "False"), "6 steps");
    assert_eq!(carries(FLIP, &["False"], "False", "True"), "6 steps");
}

/// The arms begin with a variable and a call, which may yield anything.
#[test]
fn arms_that_overlap_are_told_apart_by_the_ancilla() {
    let overlapping = "fun f (s : Bool) (n : Nat) : Nat = case s of True => n | False => plus 2 n";
    assert_eq!(carries(overlapping, &["True"], "3", "3"), "3 steps");
    assert_eq!(carries(overlapping, &["False"], "3", "5"), "39 steps");
    let collapsed = "fun f (s : Bool) (n : Nat) : Nat = case s of True => n | False => n";
    assert_eq!(carries(collapsed, &["False"], "3", "3"), "3 steps");
}

/// What an alternative holds is used, and steers a call where its let brings it back (F-2).
#[test]
fn what_the_alternative_holds_is_dynamic() {
    let held = "fun f (k : Nat) (n : Nat) : (Nat, Nat) = case k of Zero => (0, n) | Succ m => (m, Succ n)";
    assert_eq!(carries(held, &["0"], "3", "(0, 3)"), "8 steps");
    assert_eq!(carries(held, &["1"], "3", "(0, 4)"), "8 steps");
    let steering = "type Valve = Plain | Offset Nat\nfun f (v : Valve) (n : Nat) : (Nat, Nat) =\n  case v of Plain => (0, n) | Offset k => let w = plus k n in (k, w)";
    assert_eq!(carries(steering, &["Plain"], "3", "(0, 3)"), "7 steps");
    assert_eq!(carries(steering, &["Offset 0"], "3", "(0, 3)"), "37 steps");
    assert_eq!(carries(steering, &["Offset 2"], "3", "(2, 5)"), "37 steps");
}

#[test]
fn any_term_that_names_no_dynamic_variable_from_outside_chooses() {
    let arms = "of True => n | False => Succ n";
    let chosen = |by: &str| format!("{SAME}fun f (s : Bool) (n : Nat) : Nat = case {by} {arms}");
    assert_eq!(carries(&chosen("same s ()"), &["False"], "1", "2"), "11 steps");
    // What is bound inside the scrutinee does not matter.
    assert_eq!(carries(&chosen("(let b = s in b)"), &["False"], "1", "2"), "7 steps");
    assert_eq!(
        carries(&chosen("(let b = s in case b of True => False | False => True)"), &["True"], "1", "2"),
        "10 steps"
    );
    // No variable at all.
    assert_eq!(carries(&chosen("False"), &["True"], "1", "2"), "6 steps");
    assert_eq!(carries(&chosen("True"), &["False"], "1", "1"), "4 steps");
}

/// Each case is judged by its own scrutinee: the inner one, over q, is told apart by its arms.
#[test]
fn each_case_is_judged_by_its_own_scrutinee() {
    let two = "fun f (a : Bool) (b : Bool) (n : Nat) : Nat =\n  case a of True => n | False => (case b of True => plus 1 n | False => plus 2 n)";
    assert_eq!(carries(two, &["True", "False"], "1", "1"), "3 steps");
    assert_eq!(carries(two, &["False", "True"], "1", "2"), "23 steps");
    assert_eq!(carries(two, &["False", "False"], "1", "3"), "25 steps");
    let inside = "fun f (a : Bool) (n : Nat) : Nat = plus (case a of True => 1 | False => 1) n";
    assert_eq!(carries(inside, &["False"], "1", "2"), "21 steps");
    let over = "fun f (a : Bool) (q : Bool) : Nat =\n  case (case a of True => q | False => (case q of True => False | False => True)) of True => 0 | False => 1";
    assert_eq!(carries(over, &["False"], "True", "1"), "12 steps");
}

/// The case at the mark's arm is under first match by the variable told in the note; all that stands behind the mark's own lines.
fn under_first_match(text: &str, words: &[&str]) -> String {
    let words = [&["run", "FILE", "f"], words].concat();
    let told = run_refused(&format!("{PLUS}{SAME}{text}"), &words, 15, OVERLAP);
    told.lines().skip(3).map(|line| format!("{line}\n")).collect()
}

/// The note and the help on the text's line, which is the sixth of the file.
fn noted(text: &str, words: &[&str], column: usize, note: &str, help: &str) {
    let told = under_first_match(text, words);
    let head = format!("t.fun:6:{column}: note: the case chooses by {note}\n");
    assert!(
        told.starts_with(&head) && told.ends_with(&format!("{APART}{help}\n")),
        "{told}\n{head}{help}\n{text}"
    );
}

#[test]
fn a_part_of_the_record_could_be_an_ancilla() {
    let help = |it: &str| format!(", or choose by an ancilla: take {it} as an ancilla parameter of its own");
    let pair = "fun f (p : (Bool, Bool)) : Bool = let (s, q) = p in case s of True => ~q | False => (case q of True => False | False => True)";
    noted(pair, &["(False, True)"], 58, "s, which is dynamic", &help("s"));
    let deeper = "fun f (r : (Nat, Bool, Nat)) : (Nat, Nat) = let (m, s, n) = r in case s of True => ~(m, n) | False => (Succ m, n)";
    noted(deeper, &["(1, False, 1)"], 71, "s, which is dynamic", &help("s"));
    // The tuple is taken apart before the choice.
    let tuple = "fun f (r : (Bool, Nat)) : Nat = case r of (True, n) => ~n | (False, n) => Succ n";
    noted(tuple, &["(False, 1)"], 44, "what is matched here, which is dynamic", &help("it"));
    let beside = "fun f (s : Bool) (n : Nat) : Nat = case (s, n) of (True, m) => ~m | (False, m) => Succ m";
    let told = under_first_match(beside, &["False", "1"]);
    assert!(
        told.contains("t.fun:6:52: note: the case chooses by what is matched here, which is dynamic\n"),
        "{told}"
    );
    // A naming is enough (F-2).
    let named = "fun f (r : (Bool, Nat)) : (Bool, Nat) = let (b, n) = r in let y = (case same b () of True => ~n | False => Succ n) in (b, y)";
    noted(named, &["(False, 1)"], 78, "b, which is dynamic", &help("b"));
}

/// No ancilla can stand for what the function is to carry, for what a call gives of it, or for what another case has taken it apart to.
#[test]
fn what_the_record_becomes_is_no_ancilla() {
    let own = "fun f (e : Lights) : Lights = case e of Red => ~Green | Yellow => Green | Green => Red";
    noted(own, &["Yellow"], 36, "e, the dynamic parameter", "");
    let given = "fun f (k : Nat) (n : Nat) : Nat = case plus k n of Zero => ~1 | Succ m => Succ m";
    noted(given, &["1", "0"], 47, "n, the dynamic parameter", "");
    let apart =
        "fun f (n : Nat) : Nat = case n of Zero => 0 | Succ m => (case m of Zero => ~1 | Succ j => Succ j)";
    noted(apart, &["2"], 63, "m, which is dynamic", "");
    let called = "fun f (n : Nat) : Nat = let y = plus 1 n in case y of Zero => ~1 | Succ j => Succ j";
    noted(called, &["0"], 50, "y, which is dynamic", "");
    let left = "fun f (e : Lights) : Lights = case e of Red => Red | Yellow => ~Green | Green => Green";
    noted(left, &["Green"], 54, "what is matched here, which is dynamic", "");
}

#[test]
fn several_variables_are_told_together() {
    let two = "fun f (r : (Bool, Bool, Nat)) : ((Bool, Nat), Nat) = let (a, b, n) = r in case (let (c, d) = (a, b) in case c of True => inl [Bool + Bool] d | False => inr [Bool + Bool] d) of inl x => ~((x, 0), n) | inr x => ((x, 0), Succ n)";
    noted(two, &["(False, True, 1)"], 95, "a and b, which are dynamic", "");
}

/// What is made of ancillae alone and bound in the body is dynamic all the same.
#[test]
fn what_is_bound_of_ancillae_is_dynamic() {
    let dynamic = |who: &str| {
        format!("{who}, which is dynamic like all that a function's body binds, though no dynamic variable went into it")
    };
    let bound = "fun f (s : Bool) (n : Nat) : Nat = let b = same s () in case b of True => ~n | False => Succ n";
    noted(
        bound,
        &["False", "1"],
        62,
        &dynamic("b"),
        ", or choose by an ancilla: write what b is bound to in place of b",
    );
    let part = "fun f (p : (Bool, Nat)) (n : Nat) : (Nat, Nat) = let (s, k) = p in case s of True => ~(k, n) | False => (k, Succ n)";
    noted(
        part,
        &["(False, 1)", "1"],
        73,
        &dynamic("s"),
        ", or choose by an ancilla: take s as an ancilla parameter of its own",
    );
    // The first alternative is told from the others by the ancilla, the others by what the first case has bound.
    let three =
        "fun f (e : Lights) (n : Nat) : Nat = case e of Red => n | Yellow => ~Succ n | Green => Succ (Succ n)";
    noted(
        three,
        &["Green", "1"],
        59,
        &dynamic("what is matched here"),
        ", or choose by an ancilla: take it as an ancilla parameter of its own",
    );
    assert_eq!(
        carries(&format!("type Lights = Red | Yellow | Green\n{}", three.replace('~', "")), &["Yellow"], "1", "2"),
        "7 steps"
    );
}

/// Bytes have no names: the help says the rule.
#[test]
fn a_case_of_bytes_is_told_the_rule() {
    let text = "fun f (b : 1 + 1) : 1 + 1 = case b of inl u => inl u | inr u => inl u";
    let bytes = lay_out(&mut build(&Source::new("t", text)).expect("a program")).bytes;
    let call = Run {
        program: &bytes,
        direction: Direction::Forward,
        function: 0,
        ancillae: &[],
        value: &[2, 0],
        fuel: 9,
    };
    let refusal = engine::run(&call).expect_err("a refusal");
    let told = Converter::of_bytes("p.cf", bytes.clone()).refused(refusal).err;
    assert!(
        told.contains("refused 15: ") && told.contains(&format!("{APART}, or let it choose by ancillae alone\n")),
        "{told}"
    );
}

/// What the help offers: the texts above, changed so.
#[test]
fn what_is_offered_frees_the_case() {
    let part = "fun f (s : Bool) (r : (Nat, Nat)) : (Nat, Nat) = let (m, n) = r in case s of True => (m, n) | False => (Succ m, n)";
    assert_eq!(carries(part, &["False"], "(1, 1)", "(2, 1)"), "9 steps");
    let tuple = "fun f (s : Bool) (n : Nat) : Nat = case s of True => n | False => Succ n";
    assert_eq!(carries(tuple, &["False"], "1", "2"), "5 steps");
    let named = "fun f (b : Bool) (n : Nat) : (Bool, Nat) = let y = (case same b () of True => n | False => Succ n) in (b, y)";
    assert_eq!(carries(&format!("{SAME}{named}"), &["False"], "1", "(False, 2)"), "15 steps");
    let own =
        "fun f (s : Bool) (k : Nat) (n : Nat) : (Nat, Nat) = case s of True => (k, n) | False => (k, Succ n)";
    assert_eq!(carries(own, &["False", "1"], "1", "(1, 2)"), "7 steps");
}

/// A case that chooses by an ancilla inside a case that does not.
#[test]
fn the_case_that_is_under_first_match_is_told() {
    let mixed = "fun f (s : Bool) (q : Bool) : Nat = case q of True => ~(case s of True => 0 | False => 1) | False => (case s of True => 0 | False => 1)";
    noted(mixed, &["False", "False"], 42, "q, the dynamic parameter", "");
}

/// What a case chooses by is run forward on the way back as well, and meets first match there.
#[test]
fn what_is_chosen_by_is_refused_on_the_way_back_too() {
    let text = "fun f (s : Bool) (n : Nat) : Nat = case (let w = s in case w of True => ~True | False => True) of True => n | False => Succ n";
    for direction in ["run", "back"] {
        let told = run_refused(text, &[direction, "FILE", "f", "False", "1"], 15, OVERLAP);
        assert!(told.contains("t.fun:4:60: note: the case chooses by w, which is dynamic like all"), "{told}");
        let freed = ", or choose by an ancilla: write what w is bound to in place of w\n";
        assert!(told.ends_with(freed), "{told}");
    }
    let freed = "fun f (s : Bool) (n : Nat) : Nat = case (case s of True => True | False => True) of True => n | False => Succ n";
    assert_eq!(carries(freed, &["False"], "1", "1"), "6 steps");
}

/// The value at the mark is not what the arm gives; what stands behind the mark's own lines.
fn disagrees(text: &str, words: &[&str], why: &str) -> String {
    let words = [&["back", "FILE", "f"], words].concat();
    let told =
        run_refused(&format!("{PLUS}{text}"), &words, 16, &format!("no input leads to this value: {why}\n"));
    told.lines().skip(3).map(|line| format!("{line}\n")).collect()
}

#[test]
fn what_the_case_has_bound_is_compared() {
    let held = "fun f (k : Nat) (n : Nat) : (Nat, Nat) =\n  case k of Zero => (0, n) | Succ m => (~m, Succ n)";
    let told = disagrees(held, &["3", "(1, 4)"], "it is not m, which the case has bound already");
    let note = "t.fun:6:8: note: m comes from here, on the way back too: the case chooses by the ancilla k\n  6 |   case k of Zero => (0, n) | Succ m => (m, Succ n)\n    |        ^\n";
    assert_eq!(told, format!("{note}{NOT_FROM_HERE}"));
    // Both uses are compared, the second as well.
    let twice = "fun f (k : Nat) (n : Nat) : ((Nat, Nat), Nat) =\n  case k of Zero => ((0, 0), n) | Succ m => ((m, ~m), n)";
    disagrees(twice, &["3", "((2, 1), 4)"], "it is not m, which the case has bound already");
}

#[test]
fn the_arm_that_the_ancilla_chose_is_told() {
    let apart = "fun f (s : Bool) (n : Nat) : Nat =\n  case s of True => n | False => ~Succ n";
    let told = disagrees(apart, &["False", "0"], "it disagrees here");
    let note = "t.fun:6:8: note: the arm is chosen here, on the way back too: the case chooses by the ancilla s\n  6 |   case s of True => n | False => Succ n\n    |        ^\n";
    assert_eq!(told, format!("{note}{NOT_FROM_HERE}"));
    let constant = "fun f (n : Nat) : Nat = case False of True => n | False => ~Succ n";
    let told = disagrees(constant, &["0"], "it disagrees here");
    assert!(
        told.contains(": note: the arm is chosen here, on the way back too: the case chooses by no variable\n"),
        "{told}"
    );
    let two = "fun g (a : Bool) (b : Bool) (u : 1) : Bool = case a of True => b | False => True\nfun f (a : Bool) (b : Bool) (n : Nat) : Nat = case g a b () of True => n | False => ~Succ n";
    let told = disagrees(two, &["True", "False", "0"], "it disagrees here");
    assert!(
        told.contains(": note: the arm is chosen here, on the way back too: the case chooses by ancillae\n"),
        "{told}"
    );
}

/// Where a case is under first match, the value itself has chosen the arm, and nothing is told of an ancilla.
#[test]
fn elsewhere_no_ancilla_is_told() {
    let plus = "fun f (k : Nat) (n : Nat) : Nat = case n of Zero => k | Succ m => ~Succ (f k m)";
    assert_eq!(disagrees(plus, &["2", "1"], "it disagrees here"), NOT_FROM_HERE);
    let behind = "fun f (s : Bool) (n : Nat) : (Nat, Nat) = let m = n in (m, ~m)";
    assert_eq!(disagrees(behind, &["True", "(1, 2)"], "it is not m, which was met before"), NOT_FROM_HERE);
    let given = "fun f (k : Nat) (n : Nat) : (Nat, Nat) = (~k, n)";
    assert_eq!(disagrees(given, &["2", "(1, 2)"], "it is not k, which is an ancilla"), NOT_FROM_HERE);
}

/// In an arm that an ancilla chose other variables are compared too.
#[test]
fn the_variable_that_disagrees_is_told() {
    let chosen = ": note: the arm is chosen here, on the way back too: the case chooses by the ancilla s\n";
    let given = "fun f (s : Bool) (k : Nat) (n : Nat) : (Nat, Nat) = case s of True => (0, n) | False => (~k, n)";
    let told = disagrees(given, &["False", "2", "(1, 2)"], "it is not k, which is an ancilla");
    assert!(told.contains(chosen), "{told}");
    let twice = "fun f (s : Bool) (n : Nat) : (Nat, Nat) = case s of True => (0, n) | False => (n, ~n)";
    let told = disagrees(twice, &["False", "(1, 2)"], "it is not n, which was met before");
    assert!(told.contains(chosen), "{told}");
}

/// Backward the scrutinee is followed forward first, then the arm backward; the scrutinee is not met again.
#[test]
fn a_run_back_that_is_followed_chooses_first() {
    let scratch = scratch("choosing");
    let text = "type Nat = Zero | Succ Nat\nfun plus (k : Nat) (n : Nat) : Nat =\n  case n of Zero => k | Succ m => Succ (plus k m)\nfun raise (k : Nat) (n : Nat) : (Nat, Nat) =\n  case k of Zero => (0, n) | Succ m => let y = plus m n in (m, y)\n";
    scratch.file("t.fun", text);
    let expected = [
        "      5:3 case k <- (1, 1)",
        "      5:8   unroll: k = inr 1",
        "      5:8     k = 2",
        "     5:40   let y <- (1, 1)",
        "     5:60     (m, y) <- (1, 1)",
        "     5:61       m <- 1",
        "     5:64       y <- 1",
        "     5:48     plus m n <- 1",
        "     5:53       m = 1",
        "      3:3       case n <- 1",
        "     3:21         k <- 1",
        "      3:8         unroll: n <- inl ()",
        "      3:8           n <- 0",
        "     5:55       n <- 0",
        "0",
        "14 steps",
    ];
    let ran = tulakkez(&scratch.0, &["back", "t.fun", "raise", "2", "(1, 1)", "--trace"]);
    assert_eq!(ran.out.lines().collect::<Vec<_>>(), expected, "{}", ran.err);
}

#[test]
fn a_program_that_chooses_by_an_ancilla_shows_as_text_that_builds_to_it() {
    let bytes = |text: &str| lay_out(&mut build(&Source::new("t", text)).expect("a program")).bytes;
    let text = std::fs::read_to_string(root().join("examples/texts/choosing.fun")).expect("the text");
    let built = bytes(&text);
    let shown = show(&mut read(&built).expect("a program"));
    assert_eq!(bytes(&shown), built, "{shown}");
}

/// The journal keeps the ancilla: the way back chooses as the way there did.
#[test]
fn a_journal_rolls_back_by_the_ancilla_that_it_keeps() {
    let scratch = scratch("choosing");
    let journal = scratch.0.join("j").to_string_lossy().into_owned();
    let text = root().join("examples/texts/choosing.fun").to_string_lossy().into_owned();
    let answered = |words: &[&str]| {
        let words: Vec<String> = words.iter().map(|word| word.to_string()).collect();
        String::from_utf8(run(&words).answer.out).expect("text")
    };
    answered(&["open", &journal, &text, "3"]);
    assert_eq!(answered(&["convert", &journal, "volume", "Motor"]), "held 5\n39 steps\n");
    assert_eq!(answered(&["convert", &journal, "volume", "Hand"]), "held 5\n3 steps\n");
    assert_eq!(answered(&["rollback", &journal]), "held 5\n3 steps\n");
    assert_eq!(answered(&["rollback", &journal]), "held 3\n39 steps\n");
}

/// A random run of an accepted program, as text: how the engine refuses it, and what is told.
fn refused_at_random(call: Call) -> Option<(Refusal, Mistake)> {
    let Call::Run(RunCall { direction, fuel, function, program, ancillae, value, .. }) = call else { return None };
    let direction = match direction {
        second::calls::Direction::Forward => Direction::Forward,
        second::calls::Direction::Backward => Direction::Backward,
    };
    engine::check(&program).ok()?;
    let source = Source::new("t", show(&mut read(&program).expect("an accepted program")));
    let mut program = build(&source).expect("a program");
    let layout = lay_out(&mut program);
    let call = Run { program: &layout.bytes, direction, function, ancillae: &ancillae, value: &value, fuel };
    let refusal = engine::run(&call).err()?;
    refusal.term()?;
    let mistake = explain(&mut program, &source, &layout, refusal).expect("a place");
    assert!(mistake.told(&source).contains(&format!(": error: refused {}: ", refusal.number())));
    Some((refusal, mistake))
}

/// Wherever the engine refuses a run with 15, the text shows a dynamic variable that the case chooses by.
#[test]
fn every_case_that_is_refused_has_its_variable() {
    deep(|| {
        let (mut overlapping, mut disagreeing) = (0, 0);
        for (refusal, mistake) in Maker::new(23).take(10_000).filter_map(refused_at_random) {
            match refusal {
                Refusal::FirstMatch(_) => {
                    let (_, note) = mistake.note.expect("the variable");
                    assert!(note.starts_with("the case chooses by "), "{note}");
                    overlapping += 1;
                }
                Refusal::NoInput(_) => disagreeing += 1,
                _ => (),
            }
        }
        println!("{overlapping} refused with 15, {disagreeing} with 16");
        assert!(overlapping > 20 && disagreeing > 100);
    });
}
