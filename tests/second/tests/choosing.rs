//! Cases that choose by an ancilla (document 02, F-3), with all their figures.

mod common;

use common::{check, entry_of, refused, value, Runs};
use second::calls::Answer;
use second::draft::{boolean, Draft, Function};
use second::refusal::Number;
use second::samples::choosing::*;
use second::samples::steering::beside;
use second::samples::{flipped_by_part, nat_bytes, not, plus};

const INL: [u8; 2] = [1, 0];
const INR: [u8; 2] = [2, 0];
const SIDES: [[u8; 2]; 2] = [INL, INR];

fn program(functions: Vec<Function>) -> Vec<u8> {
    Draft { functions }.bytes()
}

fn other(side: [u8; 2]) -> [u8; 2] {
    [3 - side[0], 0]
}

fn two(first: &[u8], second: &[u8]) -> Vec<u8> {
    [&[3], first, second].concat()
}

/// The call gives the result in so many steps, and the call back what it was given, in as many; with one step less neither does.
fn both_ways(program: &[u8], ancillae: &[u8], given: &[u8], result: &[u8], steps: u32) {
    let exact = Runs::with_fuel(program, steps as u16);
    assert_eq!(exact.forward(0, ancillae, given), value(result, steps));
    assert_eq!(exact.backward(0, ancillae, result), value(given, steps));
    let short = Runs::with_fuel(program, steps as u16 - 1);
    for answer in [short.forward(0, ancillae, given), short.backward(0, ancillae, result)] {
        assert!(matches!(answer, Answer::Refused(refusal) if refusal.number == Number::Fuel), "{answer:?}");
    }
}

/// q is kept in so many steps for one side of the ancilla, and flipped in three more for the other: flipping is a case, its scrutinee,
/// an injection and its part, and keeping one variable.
fn flips_for(flipping: [u8; 2], program: &[u8], steps: u32) {
    for q in SIDES {
        both_ways(program, &other(flipping), &q, &q, steps);
        both_ways(program, &flipping, &q, &other(q), steps + 3);
    }
}

/// The case, its scrutinee and a variable.
#[test]
fn p12_with_s_as_an_ancilla_comes_back() {
    flips_for(INR, &program(vec![flipped_by_ancilla()]), 3);
}

/// P12 itself: the case's place is behind its parts, and before it stands the let pair's variable.
#[test]
fn p12_itself_is_unchanged() {
    let main = flipped_by_part();
    let (program, place) = (program(vec![main.clone()]), entry_of(&main.body, &[1]));
    let runs = Runs::of(&program);
    for q in SIDES {
        assert_eq!(runs.forward(0, &[], &two(&INL, &q)), value(&q, 5));
        assert_eq!(runs.forward(0, &[], &two(&INR, &q)), refused(Number::FirstMatch, place));
        assert_eq!(runs.backward(0, &[], &q), value(&two(&INL, &q), 5));
    }
}

/// Backward the scrutinee is entered right after the case, one higher, and the branch after it.
#[test]
fn the_scrutinee_runs_first_both_ways() {
    let body = flipped_by_ancilla().body;
    let program = program(vec![flipped_by_ancilla()]);
    let at = |path: &[usize]| entry_of(&body, path);
    // s and q are inr: the case, s, the flipping case, q, inl, its part.
    for (fuel, place) in [at(&[]), at(&[0]), at(&[2]), at(&[2, 0]), at(&[2, 2]), at(&[2, 2, 0])].iter().enumerate()
    {
        assert_eq!(Runs::with_fuel(&program, fuel as u16).forward(0, &INR, &INR), refused(Number::Fuel, *place));
    }
    // Back from inl: the flipping case is under first match and decides on q, which it meets last.
    for (fuel, place) in [at(&[]), at(&[0]), at(&[2]), at(&[2, 2]), at(&[2, 2, 0]), at(&[2, 0])].iter().enumerate()
    {
        assert_eq!(Runs::with_fuel(&program, fuel as u16).backward(0, &INR, &INL), refused(Number::Fuel, *place));
    }
}

/// Two cases and their scrutinees, then q or q flipped.
#[test]
fn a_choice_in_each_branch_of_a_choice() {
    let program = program(vec![flipped_by_either()]);
    for (s, t) in [(INL, INL), (INL, INR), (INR, INL), (INR, INR)] {
        for q in SIDES {
            let (result, steps) = if s == t { (q, 5) } else { (other(q), 8) };
            both_ways(&program, &[s, t].concat(), &q, &result, steps);
        }
    }
}

/// The outer case; the inner one with its scrutinee, an injection and its part; q.
#[test]
fn a_choice_decides_for_a_choice() {
    flips_for(INL, &program(vec![flipped_by_choice()]), 1 + 4 + 1);
}

/// The case; the call, its argument and the four terms of the body; q. In the body the parameter is dynamic, and first match holds for
/// its case, which gives injections of two kinds.
#[test]
fn a_call_of_ancillae_decides() {
    flips_for(INL, &program(vec![flipped_by_call(1), not()]), 1 + 6 + 1);
    // The call, its ancilla term, its dynamic term and the body of one.
    flips_for(INR, &program(vec![ancilla_in_argument(1), given_ancilla()]), 1 + 4 + 1);
}

/// The case, an injection, its part; then q flipped.
#[test]
fn a_scrutinee_without_variables_decides() {
    let program = program(vec![flipped_by_constant()]);
    for q in SIDES {
        both_ways(&program, &[], &q, &other(q), 3 + 4);
    }
}

/// The inner case gives inl for inl: the outer case, let and its variable, four terms of the inner case, q. For inr the inner case is
/// refused either way, as soon as its right branch has run: seven terms are entered by then.
#[test]
fn a_case_in_the_scrutinee_is_judged_by_its_own() {
    let main = first_match_inside();
    let program = program(vec![main.clone()]);
    let (inner, last) = (entry_of(&main.body, &[0, 1]), entry_of(&main.body, &[0, 1, 2, 0]));
    for q in SIDES {
        both_ways(&program, &INL, &q, &q, 8);
        let (enough, short) = (Runs::with_fuel(&program, 7), Runs::with_fuel(&program, 6));
        assert_eq!(enough.forward(0, &INR, &q), refused(Number::FirstMatch, inner));
        assert_eq!(enough.backward(0, &INR, &q), refused(Number::FirstMatch, inner));
        assert_eq!(short.forward(0, &INR, &q), refused(Number::Fuel, last));
        assert_eq!(short.backward(0, &INR, &q), refused(Number::Fuel, last));
    }
}

/// s is named in an ancilla argument alone; the let helps. The let pair and its variable, the let, the case, the call with two terms and
/// a body of one, q; the pair and its parts. For inr the left branch may yield q flipped: 15. Backward the left branch is taken, and the
/// call would have to give inl for s: 16 at the body's variable, the first entry behind main's.
#[test]
fn a_naming_in_an_ancilla_argument_keeps_first_match() {
    let main = named_in_argument(1);
    let program = program(vec![main.clone(), given_ancilla()]);
    assert_eq!(check(&program), Answer::Accepted);
    let runs = Runs::of(&program);
    for q in SIDES {
        both_ways(&program, &[], &two(&INL, &q), &two(&INL, &q), 12);
        let matched = refused(Number::FirstMatch, entry_of(&main.body, &[1, 0]));
        assert_eq!(runs.forward(0, &[], &two(&INR, &q)), matched);
        let given = refused(Number::NoInput, main.body.count() as u32);
        assert_eq!(runs.backward(0, &[], &two(&INR, &q)), given);
    }
}

/// The let pair and its variable, the case, the let and its two parts, q. Backward the left branch is taken, and the scrutinee's s is
/// not inl.
#[test]
fn a_dynamic_unit_in_the_scrutinee_keeps_first_match() {
    let main = beside_dynamic_unit();
    let program = program(vec![main.clone()]);
    let runs = Runs::of(&program);
    for q in SIDES {
        both_ways(&program, &INL, &two(&[0], &q), &q, 7);
        let matched = refused(Number::FirstMatch, entry_of(&main.body, &[1]));
        assert_eq!(runs.forward(0, &INR, &two(&[0], &q)), matched);
        assert_eq!(runs.backward(0, &INR, &q), refused(Number::NoInput, entry_of(&main.body, &[1, 0, 1])));
    }
}

/// inr b shows b twice beside q: the case, s, two pairs, three variables. Each use of b is compared with what s holds.
#[test]
fn each_use_of_the_branch_variable_is_compared() {
    let main = shown_twice();
    let program = program(vec![main.clone()]);
    let runs = Runs::of(&program);
    let shown = |first: [u8; 2], second: [u8; 2], q: [u8; 2]| two(&first, &two(&second, &q));
    for (b, q) in [(INL, INL), (INL, INR), (INR, INL), (INR, INR)] {
        let s = [&[2], &b[..]].concat();
        both_ways(&program, &s, &q, &shown(b, b, q), 7);
        let first = refused(Number::NoInput, entry_of(&main.body, &[2, 0]));
        assert_eq!(runs.backward(0, &s, &shown(other(b), b, q)), first);
        assert_eq!(runs.backward(0, &s, &shown(other(b), other(b), q)), first);
        let second = refused(Number::NoInput, entry_of(&main.body, &[2, 1, 0]));
        assert_eq!(runs.backward(0, &s, &shown(b, other(b), q)), second);
    }
    // inl: both injections with their parts, two pairs, q; a value that inr alone gives has no input.
    both_ways(&program, &INL, &INR, &shown(INL, INL, INR), 2 + 2 + 4 + 1);
    let left = refused(Number::NoInput, entry_of(&main.body, &[1, 0]));
    assert_eq!(runs.backward(0, &INL, &shown(INR, INR, INR)), left);
}

/// Plus in the scrutinee, its body at 4: it rises by four a successor and two at the end. 254 come to 1,022. With 255 the 256th case
/// stands at 1,024, and its scrutinee, the second entry of plus, is too high, either way.
#[test]
fn the_height_is_passed_in_the_scrutinee() {
    let main = before_sum(1);
    let program = program(vec![main.clone(), plus(1)]);
    let sum = |n: usize| [nat_bytes(0), nat_bytes(n)].concat();
    // The case, unroll, the call and its two terms, plus, the pair and its parts.
    both_ways(&program, &sum(254), &INL, &two(&nat_bytes(253), &INL), 1 + 1 + 3 + (4 + 8 * 254) + 3);
    let runs = Runs::of(&program);
    let too_high = refused(Number::Height, main.body.count() as u32 + 1);
    assert_eq!(runs.forward(0, &sum(255), &INL), too_high);
    assert_eq!(runs.backward(0, &sum(255), &two(&nat_bytes(0), &INL)), too_high);
}

/// The successor of 509 has 1,023 bytes, and 509 beside a 1+1 has 1,024; the successor of 510 has 1,025, met at its roll either way.
#[test]
fn a_value_in_the_scrutinee_is_too_long() {
    let main = before_successor();
    let program = program(vec![main.clone()]);
    // The case, unroll, roll, inr, the ancilla; the pair and its parts.
    both_ways(&program, &nat_bytes(509), &INR, &two(&nat_bytes(509), &INR), 8);
    let runs = Runs::of(&program);
    let too_long = refused(Number::Size, entry_of(&main.body, &[0, 0]));
    assert_eq!(runs.forward(0, &nat_bytes(510), &INR), too_long);
    assert_eq!(runs.backward(0, &nat_bytes(510), &two(&nat_bytes(0), &INR)), too_long);
}

/// The call; the case with its scrutinee, an injection and its part; q; the body's pair and its parts. The argument is inl either way,
/// and a value with inr beside it has no input: main has eight entries, and the body's second variable is the next but one.
#[test]
fn a_case_in_an_ancilla_argument_chooses() {
    let main = chosen_argument(1);
    let program = program(vec![main.clone(), beside(&[boolean()], &boolean())]);
    assert_eq!(main.body.count(), 8);
    for s in SIDES {
        for q in SIDES {
            both_ways(&program, &s, &q, &two(&q, &INL), 1 + 4 + 1 + 3);
            assert_eq!(Runs::of(&program).backward(0, &s, &two(&q, &INR)), refused(Number::NoInput, 8 + 1));
        }
    }
}

/// Decided by a variable that is bound in the argument around it, the case stays under first match, either way.
#[test]
fn a_variable_of_the_argument_keeps_first_match() {
    let main = matched_argument(1);
    let program = program(vec![main.clone(), beside(&[boolean()], &boolean())]);
    let runs = Runs::of(&program);
    let matched = refused(Number::FirstMatch, entry_of(&main.body, &[0, 1]));
    for q in SIDES {
        both_ways(&program, &INL, &q, &two(&q, &INL), 1 + 2 + 4 + 1 + 3);
        assert_eq!(runs.forward(0, &INR, &q), matched);
        assert_eq!(runs.backward(0, &INR, &two(&q, &INL)), matched);
    }
}

/// (s, q) by let y = f s q in (s, y): the let pair and its variable, the let, the call and its two terms, the pair and its parts, and
/// the body's three or six.
#[test]
fn a_dynamic_variable_that_steers_a_call_chooses_in_it() {
    let program = program(vec![steered_to_choose(1), flipped_by_ancilla()]);
    for q in SIDES {
        both_ways(&program, &[], &two(&INL, &q), &two(&INL, &q), 9 + 3);
        both_ways(&program, &[], &two(&INR, &q), &two(&INR, &other(q)), 9 + 6);
    }
}

/// The outer case is under first match. With s inl its left branch gives inl and never inr, but may yield either.
#[test]
fn may_yield_takes_either_branch_of_a_choice() {
    let main = choice_on_the_left();
    let program = program(vec![main.clone()]);
    let runs = Runs::of(&program);
    let matched = refused(Number::FirstMatch, entry_of(&main.body, &[]));
    for s in SIDES {
        // Two cases and their scrutinees, an injection and its part.
        both_ways(&program, &s, &INL, &s, 6);
        assert_eq!(runs.forward(0, &s, &INR), matched);
    }
    // So backward it takes the left branch, in which s chooses the inl.
    let no_input = refused(Number::NoInput, entry_of(&main.body, &[1, 1]));
    assert_eq!(runs.backward(0, &INL, &INR), no_input);
}

/// Choices by s: the left branch of each may yield q, and each is passed both ways, two terms a choice and q. The other side ends at once.
#[test]
fn as_many_choices_as_the_scope_has_room_for() {
    for (function, inwards) in [(choices_to_the_right(30), INR), (choices_to_the_left(30), INL)] {
        let program = program(vec![function]);
        for q in SIDES {
            both_ways(&program, &inwards, &q, &q, 2 * 30 + 1);
            both_ways(&program, &other(inwards), &q, &q, 3);
        }
    }
}
