//! Small programs, each for a corner of section 2 or 3 that random terms meet seldom.

use super::types::{random_type, smallest_term};
use crate::draft::*;
use crate::rng::Rng;
use crate::samples::choosing::flipped_by_ancilla;
use crate::samples::{dup, flipped_by_part, plus, same_in_both_branches, successor};

/// Programs whose values are longer than what they come from, one way or the other.
pub fn sized_program(rng: &mut Rng) -> Draft {
    let functions = match rng.below(5) {
        0 | 1 => vec![wrapping(rng), wrapping(rng)],
        2 | 3 => shrinking(rng),
        _ => choosing(rng),
    };
    Draft { functions }
}

/// Programs whose conversions leave a shorter record.
pub fn shortening_program(rng: &mut Rng) -> Draft {
    Draft { functions: vec![units(rng.between(2, 14)), counting(1)] }
}

pub fn corner_program(rng: &mut Rng) -> Draft {
    let functions = match rng.below(12) {
        0 => spinning(rng),
        1 => vec![wrapping(rng)],
        2 => shrinking(rng),
        3 => choosing(rng),
        4 | 11 => ancilla_terms(rng),
        5 => vec![plus(0), times(1, 0)],
        6 => parity(),
        7 => vec![same_in_both_branches(), flipped_by_part(), flipped_by_ancilla()],
        8 => return shortening_program(rng),
        9 => beside_ancillae(rng),
        _ => bound_in_ancillae(rng),
    };
    Draft { functions }
}

fn one(parameter: &Type, result: &Type, body: Term) -> Function {
    Function { parameters: vec![parameter.clone()], result: result.clone(), body }
}

/// Runs that end by fuel or height alone, either way.
fn spinning(rng: &mut Rng) -> Vec<Function> {
    let ty = random_type(rng);
    let again = call(0, vec![variable(0)]);
    let body = match rng.below(4) {
        0 => again,
        1 => let_one(again, variable(1)),
        2 => call(0, vec![call(0, vec![variable(0)])]),
        _ => call(1, vec![variable(0)]),
    };
    vec![one(&ty, &ty, body), one(&ty, &ty, let_one(variable(0), call(0, vec![variable(1)])))]
}

/// Constructors around the argument: 14 at each of them, 16 at the injections.
fn wrapping(rng: &mut Rng) -> Function {
    let parameter = if rng.chance(60) { nat() } else { random_type(rng) };
    let (mut ty, mut term) = (parameter.clone(), variable(0));
    for _ in 0..rng.between(1, 6) {
        let other = if rng.chance(50) { unit_type() } else { boolean() };
        (ty, term) = match rng.below(5) {
            0 => (sum(&ty, &other), inl(&sum(&ty, &other), term)),
            1 => (sum(&other, &ty), inr(&sum(&other, &ty), term)),
            2 => (product(&ty, &other), pair(term, smallest_term(&other))),
            3 => (product(&other, &ty), pair(smallest_term(&other), term)),
            _ => (recursive(&ty), roll(&recursive(&ty), term)),
        };
    }
    one(&parameter, &ty, term)
}

/// A term with the value of variable 0, the only one in scope: one of several kinds, so that each is given what is
/// too long. Function `same` must be the identity on the type.
fn around(rng: &mut Rng, ty: &Type, same: usize) -> Term {
    match (&**ty, rng.below(6)) {
        (_, 0) => let_one(variable(0), variable(1)),
        (_, 1) => call(same, vec![variable(0)]),
        (TypeTree::Product(..), 2 | 3) => let_pair(variable(0), pair(variable(1), variable(2))),
        (TypeTree::Sum(..), 2) => case(variable(0), inl(ty, variable(1)), inr(ty, variable(1))),
        (TypeTree::Recursive(_), 2 | 3) => roll(ty, unroll(ty, variable(0))),
        _ => variable(0),
    }
}

/// The value is shorter than the argument: backward, 14 on entering the part that is given more.
fn shrinking(rng: &mut Rng) -> Vec<Function> {
    let ty = if rng.chance(80) { nat() } else { random_type(rng) };
    let beside = product(&unit_type(), &ty);
    let wrapped = recursive(&ty);
    let twice = product(&ty, &ty);
    // The pair is bound where variable 0 alone is in scope, so that its parts are variables 1 and 2.
    let both = let_pair(call(3, vec![variable(0)]), pair(variable(2), variable(1)));
    vec![
        one(&beside, &ty, let_pair(around(rng, &beside, 5), variable(2))),
        one(&wrapped, &ty, unroll(&wrapped, around(rng, &wrapped, 6))),
        one(&nat(), &unfold(&nat()), let_one(unroll(&nat(), around(rng, &nat(), 7)), variable(1))),
        dup(&ty),
        one(&ty, &twice, both),
        one(&beside, &beside, variable(0)),
        one(&wrapped, &wrapped, variable(0)),
        one(&nat(), &nat(), variable(0)),
    ]
}

/// Cases whose left branch may yield what the right one yields: all values, or one.
fn choosing(rng: &mut Rng) -> Vec<Function> {
    let ty = if rng.chance(50) { nat() } else { random_type(rng) };
    let (first, last) = (sum(&ty, &unit_type()), sum(&unit_type(), &ty));
    let constant = smallest_term(&ty);
    let under_case = case(variable(0), case(variable(1), variable(2), constant.clone()), constant.clone());
    let by_lets = case(variable(0), let_one(constant.clone(), variable(2)), let_one(variable(1), variable(2)));
    vec![
        one(&first, &ty, case(around(rng, &first, 4), variable(1), constant.clone())),
        one(&last, &ty, case(around(rng, &last, 5), constant, variable(1))),
        one(&sum(&first, &unit_type()), &ty, under_case),
        one(&last, &ty, by_lets),
        one(&first, &first, variable(0)),
        one(&last, &last, variable(0)),
    ]
}

/// A program of `ancilla_terms`.
pub fn ancilla_program(rng: &mut Rng) -> Draft {
    Draft { functions: ancilla_terms(rng) }
}

/// Ancilla arguments with calls, lets and cases inside, which may meet 12 to 15 in a backward run too.
fn ancilla_terms(rng: &mut Rng) -> Vec<Function> {
    let double = call(0, vec![variable(0), variable(0)]);
    // Refused for 1, whose predecessor the left branch may yield.
    let lower = case(unroll(&nat(), variable(0)), smallest_term(&nat()), variable(2));
    let argument = match rng.below(5) {
        0 => double.clone(),
        1 => lower,
        2 => successor(successor(variable(0))),
        3 => let_one(double.clone(), variable(2)),
        _ => call(0, vec![call(0, vec![lower, variable(0)]), variable(0)]),
    };
    let twice = product(&nat(), &nat());
    let swapped = let_pair(pair(variable(0), double), pair(variable(3), variable(2)));
    vec![
        plus(0),
        Function { parameters: vec![nat(), nat()], result: nat(), body: call(0, vec![argument, variable(1)]) },
        Function {
            parameters: vec![nat(), nat()],
            result: product(&nat(), &twice),
            body: call(3, vec![swapped, variable(1)]),
        },
        Function {
            parameters: vec![twice.clone(), nat()],
            result: product(&nat(), &twice),
            body: pair(successor(variable(1)), variable(0)),
        },
        collapsing(5),
        Function {
            parameters: vec![boolean(), boolean()],
            result: product(&boolean(), &boolean()),
            body: pair(variable(1), variable(0)),
        },
    ]
}

/// An ancilla argument that meets 15 whenever the ancilla is inr.
fn collapsing(shown_beside: usize) -> Function {
    let collapsed = case(variable(0), inl(&boolean(), variable(2)), inl(&boolean(), variable(2)));
    Function {
        parameters: vec![boolean(), boolean()],
        result: product(&boolean(), &boolean()),
        body: call(shown_beside, vec![collapsed, variable(1)]),
    }
}

fn times(itself: usize, plus: usize) -> Function {
    let recursion = call(itself, vec![variable(0), variable(2)]);
    let body = case(unroll(&nat(), variable(1)), smallest_term(&nat()), call(plus, vec![variable(0), recursion]));
    Function { parameters: vec![nat(), nat()], result: nat(), body }
}

/// Two functions that call each other, one step of a Nat each.
fn parity() -> Vec<Function> {
    let side = |other: usize| {
        let body = case(
            unroll(&nat(), variable(0)),
            roll(&nat(), inl(&unfold(&nat()), variable(1))),
            successor(call(other, vec![variable(1)])),
        );
        one(&nat(), &nat(), body)
    };
    vec![side(1), side(0)]
}

/// A long record of units to a single one: a rollback may need more bytes than it frees.
fn units(count: usize) -> Function {
    let mut ty = unit_type();
    let mut body = variable(2 * count);
    for number in (0..count).rev() {
        ty = product(&unit_type(), &ty);
        body = let_pair(variable(2 * number), body);
    }
    one(&ty, &unit_type(), body)
}

/// A list of units to a Nat: two bytes shorter for each element.
fn counting(itself: usize) -> Function {
    let ty = list(&unit_type());
    let full = let_pair(variable(1), successor(call(itself, vec![variable(3)])));
    one(&ty, &nat(), case(unroll(&ty, variable(0)), smallest_term(&nat()), full))
}

/// Ancillae in the value: 16 where another one is given backward.
fn beside_ancillae(rng: &mut Rng) -> Vec<Function> {
    let count = rng.between(1, 7);
    let ancillae: Vec<Type> = (0..count).map(|_| random_type(rng)).collect();
    let dynamic = random_type(rng);
    let shown = rng.below(count);
    let result = product(&ancillae[shown], &dynamic);
    let parameters: Vec<Type> = ancillae.into_iter().chain([dynamic]).collect();
    let direct = Function {
        parameters: parameters.clone(),
        result: result.clone(),
        body: pair(variable(shown), variable(count)),
    };
    let body = call(0, (0..=count).map(variable).collect());
    vec![direct, Function { parameters, result, body }]
}

/// Variables bound inside ancilla arguments, and ancilla arguments inside those.
fn bound_in_ancillae(rng: &mut Rng) -> Vec<Function> {
    let ty = random_type(rng);
    let held = Function {
        parameters: vec![ty.clone(), ty.clone()],
        result: product(&ty, &ty),
        body: pair(variable(1), variable(0)),
    };
    let inner = let_pair(call(0, vec![variable(0), variable(0)]), pair(variable(2), variable(3)));
    let first = let_pair(inner, call(2, vec![variable(0), pair(variable(2), variable(3))]));
    let outer = Function {
        parameters: vec![ty.clone(), ty.clone()],
        result: product(&ty, &ty),
        body: call(0, vec![first, variable(1)]),
    };
    let parameters = vec![ty.clone(), product(&ty, &ty)];
    // Backward, both parts of the pair must agree with the value.
    let agree = Function { parameters, result: ty.clone(), body: call(3, vec![variable(1)]) };
    let spin = one(&product(&ty, &ty), &ty, call(3, vec![variable(0)]));
    vec![held, outer, agree, spin]
}
