//! Calls steered by a dynamic variable (document 02, F-2), with all their figures.

mod common;

use common::{check, entry_of, refused, value, Runs};
use second::assemble::Assembler;
use second::calls::Answer;
use second::draft::*;
use second::refusal::Number;
use second::samples::steering::{
    beside, by_first, helped_by_inner, helped_by_outer, in_argument, over_list, running_sums, unsteered,
    with_unmet_unit,
};
use second::samples::{list_bytes, nat_bytes, plus};

fn two(first: usize, second: usize) -> Vec<u8> {
    [&[3], &nat_bytes(first)[..], &nat_bytes(second)].concat()
}

fn with_plus(main: Function) -> Vec<u8> {
    Draft { functions: vec![main, plus(1)] }.bytes()
}

/// The entry at which P4's refusal stands in plus, behind so many entries of main: plus has its inr at 6.
fn inr_of_plus(main: &Function) -> u32 {
    main.body.count() as u32 + 6
}

/// Let pair and its variable; let; the call, its two arguments and P2's 28 steps; the pair and its two parts.
const STEPS: u32 = 2 + 1 + (3 + 28) + 3;

#[test]
fn a_variable_that_comes_back_steers_a_call() {
    let program = with_plus(by_first(1));
    let exact = Runs::with_fuel(&program, STEPS as u16);
    assert_eq!(exact.forward(0, &[], &two(2, 3)), value(&two(2, 5), STEPS));
    assert_eq!(exact.backward(0, &[], &two(2, 5)), value(&two(2, 3), STEPS));
    assert_eq!(exact.backward(0, &[], &two(2, 1)), refused(Number::NoInput, inr_of_plus(&by_first(1))));
    // One step short, each way ends at the last term entered: forward the pair's second part, backward main's let pair's variable.
    let short = Runs::with_fuel(&program, STEPS as u16 - 1);
    let (last_forward, last_backward) =
        (entry_of(&by_first(1).body, &[1, 1, 1]), entry_of(&by_first(1).body, &[0]));
    assert_eq!(short.forward(0, &[], &two(2, 3)), refused(Number::Fuel, last_forward));
    assert_eq!(short.backward(0, &[], &two(2, 5)), refused(Number::Fuel, last_backward));
}

/// Any let around the argument is enough. One more let and its body's variable are two steps more.
#[test]
fn either_of_two_lets_helps() {
    for main in [helped_by_outer(1), helped_by_inner(1)] {
        let program = with_plus(main.clone());
        let runs = Runs::of(&program);
        assert_eq!(runs.forward(0, &[], &two(2, 3)), value(&two(2, 5), STEPS + 2));
        assert_eq!(runs.backward(0, &[], &two(2, 5)), value(&two(2, 3), STEPS + 2));
        assert_eq!(runs.backward(0, &[], &two(2, 1)), refused(Number::NoInput, inr_of_plus(&main)));
    }
}

/// Two let pairs and a variable, a call of six steps, a case of four.
#[test]
fn a_unit_that_the_branch_never_met_is_unit_in_an_ancilla_term() {
    let functions = vec![with_unmet_unit(1), beside(&[unit_type()], &boolean())];
    let program = Draft { functions }.bytes();
    let runs = Runs::of(&program);
    for side in [1, 2] {
        assert_eq!(runs.forward(0, &[], &[3, 0, side, 0]), value(&[side, 0], 13));
        assert_eq!(runs.backward(0, &[], &[side, 0]), value(&[3, 0, side, 0], 13));
    }
}

/// f (let k = a in let y = plus k a in (k, y)) x, as readings have it.
#[test]
fn the_rule_holds_among_variables_of_an_argument() {
    let both = product(&nat(), &nat());
    let program = Draft { functions: vec![in_argument(1, 2), plus(1), beside(&[both], &boolean())] }.bytes();
    let runs = Runs::of(&program);
    let shown = [&[3, 2, 0], &two(2, 4)[..]].concat();
    // The call and its dynamic term, two lets and a variable, plus 2 of 2 with its call, the pair, and three steps of the body.
    let steps = 2 + 3 + (3 + 20) + 3 + 3;
    assert_eq!(runs.forward(0, &nat_bytes(2), &[2, 0]), value(&shown, steps));
    assert_eq!(runs.backward(0, &nat_bytes(2), &shown), value(&[2, 0], steps));
    let other = runs.backward(0, &nat_bytes(1), &shown);
    assert!(matches!(other, Answer::Refused(refusal) if refusal.number == Number::NoInput), "{other:?}");
}

#[test]
fn a_list_is_converted_head_by_head() {
    let program = Draft { functions: vec![plus(0), running_sums(1, 0), over_list(1)] }.bytes();
    let record = |key: usize, elements: &[usize]| {
        let elements: Vec<Vec<u8>> = elements.iter().map(|&n| nat_bytes(n)).collect();
        [&[3], &nat_bytes(key)[..], &list_bytes(&elements)].concat()
    };
    let runs = Runs::of(&program);
    let (given, converted) = (record(4, &[3, 1, 0, 5]), record(4, &[7, 4, 1, 5]));
    let Answer::Value { value: got, steps } = runs.forward(2, &[], &given) else { panic!("it runs") };
    assert_eq!(got, converted);
    assert_eq!(runs.backward(2, &[], &converted), value(&given, steps));
    // The second element would be below the first, 3.
    let none = runs.backward(2, &[], &record(4, &[7, 2]));
    assert!(matches!(none, Answer::Refused(refusal) if refusal.number == Number::NoInput), "{none:?}");
}

/// Main of the refusals below takes (k, n) apart and calls function 1, which gives n with k, or 2, which gives n's like with k twice.
const K: usize = 1;
const N: usize = 2;
const NEW: usize = 3;

fn steered() -> Term {
    call(1, vec![variable(K), variable(N)])
}

/// Main with a body under k, of the given type, and n, a Nat.
fn program_of(key: &Type, result: &Type, body: &Term) -> Vec<u8> {
    let one = [key.clone()];
    let main = Function {
        parameters: vec![product(key, &nat())],
        result: result.clone(),
        body: let_pair(variable(0), body.clone()),
    };
    let functions =
        vec![main, beside(&one, &nat()), beside(&[key.clone(), key.clone()], &nat()), unsteered(&one, key)];
    Draft { functions }.bytes()
}

/// The offset of a term's field.
fn offset_of(program: &[u8], entry: u32) -> u32 {
    let (mut at, mut terms) = (0, 0);
    while terms <= entry {
        if program[at] == 2 {
            terms += 1;
        }
        if terms <= entry {
            at += 3 + u16::from_be_bytes([program[at + 1], program[at + 2]]) as usize;
        }
    }
    at as u32
}

/// The body under k and n is refused at the part that the path leads to. Main's own let pair has the variable before it.
fn refused_at(key: &Type, body: Term, number: Number, path: &[usize]) {
    let program = program_of(key, &unit_type(), &body);
    let place = offset_of(&program, 1 + entry_of(&body, path));
    assert_eq!(check(&program), refused(number, place), "{body:?}");
}

fn accepted(key: &Type, result: &Type, body: Term) {
    assert_eq!(check(&program_of(key, result, &body)), Answer::Accepted, "{body:?}");
}

/// n with k, as function 1 gives it.
fn with_key(key: &Type) -> Type {
    product(&nat(), key)
}

#[test]
fn where_no_let_could_help_8_is_met_at_once() {
    let key = boolean();
    let used = || variable(K);
    refused_at(&key, pair(steered(), used()), Number::Use, &[0, 0]);
    refused_at(&key, pair(used(), steered()), Number::Use, &[1, 0]);
    // Before the types of the call are found to differ, and behind 7.
    refused_at(&key, call(1, vec![used(), used()]), Number::Use, &[0]);
    refused_at(&key, call(1, vec![variable(NEW), variable(N)]), Number::Scope, &[0]);
    // The call's own dynamic term uses k; the let's bound term does.
    refused_at(&key, pair(call(3, vec![used(), used()]), variable(N)), Number::Use, &[0, 0]);
    refused_at(&key, let_one(used(), pair(variable(NEW), steered())), Number::Use, &[1, 1, 0]);
    // A case's scrutinee: each branch uses k.
    let decided = call(3, vec![used(), inl(&key, Term::Unit)]);
    refused_at(&key, case(decided.clone(), used(), used()), Number::Use, &[0, 0]);
    // With a let in the scrutinee, it is met after that let's body.
    refused_at(&key, case(let_one(decided, variable(NEW)), used(), used()), Number::Use, &[0, 0, 0]);
}

/// The outer let has k in scope, but not what is bound inside its bound term; that it uses the same number is no help.
#[test]
fn a_let_outside_the_binder_does_not_help() {
    let inner = let_one(variable(K), pair(call(1, vec![variable(NEW), variable(N)]), variable(NEW)));
    refused_at(&boolean(), let_one(inner, variable(NEW)), Number::Use, &[0, 1, 0, 0]);
}

#[test]
fn a_let_inside_the_argument_does_not_help_from_outside() {
    let key = boolean();
    // Function 3 gives its dynamic argument, of k's type.
    let argument = let_one(call(3, vec![variable(K), variable(K)]), variable(NEW));
    let named = call(1, vec![argument, variable(N)]);
    refused_at(&key, pair(named.clone(), variable(K)), Number::Use, &[0, 0, 0, 0]);
    refused_at(&key, pair(let_one(named.clone(), variable(NEW)), variable(K)), Number::Use, &[0, 0, 0, 0, 0]);
    accepted(&key, &product(&key, &with_key(&key)), let_one(named, pair(variable(K), variable(NEW))));
}

#[test]
fn a_naming_is_refused_after_the_outermost_body() {
    let key = boolean();
    let behind = |term: Term| pair(term, variable(K));
    let inner = || let_one(steered(), variable(NEW));
    refused_at(&key, behind(inner()), Number::Use, &[0, 0, 0]);
    refused_at(&key, behind(let_one(inner(), variable(NEW))), Number::Use, &[0, 0, 0, 0]);
    // 6, 7 and 8 in a body come first, in the outer one too.
    refused_at(&key, behind(let_one(steered(), roll(&nat(), variable(NEW)))), Number::Mismatch, &[0, 1]);
    refused_at(&key, behind(let_one(inner(), roll(&nat(), variable(NEW)))), Number::Mismatch, &[0, 1]);
    refused_at(&key, behind(let_one(inner(), variable(NEW + 1))), Number::Scope, &[0, 1]);
    let unused = let_one(variable(NEW), Term::Unit);
    refused_at(&key, behind(let_one(inner(), unused)), Number::Use, &[0, 1]);
    // What the bound term lacks comes before the body.
    refused_at(&key, behind(let_pair(variable(N), variable(K))), Number::Mismatch, &[0]);
}

#[test]
fn naming_is_no_use() {
    let key = boolean();
    // Not for the helping body: the inner naming is refused first.
    let again = let_pair(
        steered(),
        let_one(call(1, vec![variable(K), variable(NEW)]), pair(variable(NEW + 2), variable(NEW + 1))),
    );
    refused_at(&key, pair(again, variable(K)), Number::Use, &[0, 1, 0, 0]);
    // Not for equal branches, though the outer let helps.
    let branches = case(inl(&boolean(), Term::Unit), pair(variable(N), variable(K)), steered());
    let body = let_one(branches, pair(variable(K), variable(NEW)));
    refused_at(&key, body, Number::Use, &[0]);
    // Not by the bound term itself.
    refused_at(&key, let_one(pair(steered(), variable(K)), variable(NEW)), Number::Use, &[0, 0, 0]);
}

#[test]
fn units_are_not_exempt() {
    let key = unit_type();
    refused_at(&key, steered(), Number::Use, &[0]);
    refused_at(&key, let_one(steered(), variable(NEW)), Number::Use, &[0, 0]);
    // The union over the branches uses it.
    let result = sum(&key, &unit_type());
    let branches = case(inl(&boolean(), Term::Unit), inl(&result, variable(K)), inr(&result, Term::Unit));
    let body = let_one(steered(), pair(branches, variable(NEW)));
    accepted(&key, &product(&result, &with_key(&key)), body);
}

/// The let's own place, where its variable is unused, is higher than any naming's in its bound term.
#[test]
fn of_several_places_the_lowest_stands() {
    let key = boolean();
    refused_at(&key, pair(let_one(steered(), Term::Unit), variable(K)), Number::Use, &[0, 0, 0]);
    let twice = call(2, vec![variable(K), variable(K), variable(N)]);
    refused_at(&key, pair(let_one(twice, variable(NEW)), variable(K)), Number::Use, &[0, 0, 0]);
    for later_is_lower in [false, true] {
        assert_eq!(check(&two_namings(later_is_lower)), refused(Number::Use, offset_of(&two_namings(true), 0)));
    }
}

/// Two arguments name variable 1; the one of the lower entry is written first, or second.
fn two_namings(later_is_lower: bool) -> Vec<u8> {
    let mut a = Assembler::default();
    let unit = a.unit_type();
    let boolean = a.sum(unit, unit);
    let record = a.product(boolean, boolean);
    let (low, high) = (a.variable(1), a.variable(1));
    let n = a.variable(2);
    let named = a.call(1, &if later_is_lower { [high, low, n] } else { [low, high, n] });
    let y = a.variable(3);
    let steered = a.let_one(named, y);
    let k = a.variable(1);
    let both = a.pair(steered, k);
    let x = a.variable(0);
    let main = a.let_pair(x, both);
    let same = a.variable(2);
    a.function(record, &[record], main);
    a.function(boolean, &[boolean, boolean, boolean], same);
    a.bytes()
}
