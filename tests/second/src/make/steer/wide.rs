//! Steering at the limits of terms and variables: one naming under many lets, many namings under one, arguments in arguments, and as
//! many variables as can be named.

use crate::draft::*;
use crate::limits::{TERMS, VARIABLES};
use crate::rng::Rng;
use crate::samples::steering::unsteered;

/// Main's record is (k, n), both 1+1; its let pair is the first binder.
const K: usize = 1;
const N: usize = 2;
const NEW: usize = 3;

/// Function 1 gives its dynamic argument.
const SAME: usize = 1;

fn with_same(record: &Type, result: &Type, body: Term) -> Draft {
    let main = Function { parameters: vec![record.clone()], result: result.clone(), body };
    Draft { functions: vec![main, unsteered(&[boolean()], &boolean())] }
}

/// So many namings in one bound term, and so many lets around it. The body of the let with the given number, counted from outside,
/// uses k; if there is none, k is used outside of all, and the namings are refused.
pub fn around(lets: usize, namings: usize, helper: Option<usize>) -> Draft {
    let steered = (0..namings).fold(variable(N), |term, _| call(SAME, vec![variable(K), term]));
    let body = |number: usize| match helper {
        Some(helper) if helper == number => pair(variable(NEW), variable(K)),
        _ => variable(NEW),
    };
    let term = (0..lets).rev().fold(steered, |term, number| let_one(term, body(number)));
    let term = if helper.is_some() { term } else { pair(term, variable(K)) };
    let two = product(&boolean(), &boolean());
    with_same(&two, &two, let_pair(variable(0), term))
}

/// An argument in an argument, so many times over; each names k.
pub fn arguments_in_arguments(count: usize) -> Draft {
    let argument = (1..count).fold(variable(K), |inner, _| call(SAME, vec![inner, variable(K)]));
    let term = let_one(call(SAME, vec![argument, variable(N)]), pair(variable(K), variable(NEW)));
    let two = product(&boolean(), &boolean());
    with_same(&two, &two, let_pair(variable(0), term))
}

/// As many lets around one naming as there can be, or as many namings, or arguments: the terms of all come to the limit.
pub fn at_the_limit() -> Vec<Draft> {
    // Main's let pair, its variable and N, the term of `SAME`; a naming has a call and a variable, a let itself and its body's variable.
    let room = (TERMS - 4) / 2;
    let mut drafts = vec![
        around(room - 2, 1, Some(0)),
        around(room - 2, 1, Some(room - 3)),
        around(room - 2, 1, Some(room / 2)),
        around(room - 2, 1, None),
        around(1, room - 2, Some(0)),
        around(1, room - 2, None),
        around(room / 2, room / 2 - 1, Some(0)),
        around(room / 2, room / 2 - 1, None),
        arguments_in_arguments(room - 2),
    ];
    drafts.extend([0, 1].map(|left_out| many_variables(VARIABLES / 2 - 1, left_out)));
    drafts
}

/// A tuple taken apart by so many let pairs. All parts steer one call each, and the body uses them but for the first few.
pub fn many_variables(let_pairs: usize, left_out: usize) -> Draft {
    // Let pair i binds a part, and what is left of the tuple.
    let parts: Vec<usize> = (0..let_pairs).map(|i| 2 * i + 1).chain([2 * let_pairs]).collect();
    let steered = parts.iter().fold(Term::Unit, |term, &part| call(SAME, vec![variable(part), term]));
    let value = variable(2 * let_pairs + 1);
    let tuple = parts[left_out..].iter().rev().fold(value, |behind, &part| pair(variable(part), behind));
    let opened = |body, i: usize| let_pair(variable(2 * i), body);
    let body = (0..let_pairs).rev().fold(let_one(steered, tuple), opened);
    let shown = |count: usize, last: Type| (0..count).fold(last, |ty, _| product(&boolean(), &ty));
    let main = Function {
        parameters: vec![shown(let_pairs, boolean())],
        result: shown(parts.len() - left_out, unit_type()),
        body,
    };
    Draft { functions: vec![main, unsteered(&[boolean()], &unit_type())] }
}

/// One of these, most often small.
pub fn wide_draft(rng: &mut Rng) -> Draft {
    let most = if rng.chance(5) { 250 } else { 24 };
    let (lets, namings) = (rng.between(1, most), rng.between(1, most));
    match rng.below(6) {
        0 => arguments_in_arguments(namings),
        1 => many_variables(rng.between(1, VARIABLES / 2), rng.below(2)),
        2 => around(lets, namings, None),
        _ => around(lets, namings, Some(rng.below(lets))),
    }
}
