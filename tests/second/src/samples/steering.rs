//! Functions in which a dynamic variable steers a call in a let's bound term (02, F-2), and functions that such calls name.

use super::{cons, match_list, nil};
use crate::draft::*;

/// Document 02, F-2: (k, n) gives let y = plus k n in (k, y).
pub fn by_first(plus: usize) -> Function {
    let body = let_one(call(plus, vec![variable(1), variable(2)]), pair(variable(1), variable(3)));
    on_two_nats(let_pair(variable(0), body))
}

/// The other way round: (n, k) gives (y, k).
pub fn by_second(plus: usize) -> Function {
    let body = let_one(call(plus, vec![variable(2), variable(1)]), pair(variable(3), variable(2)));
    on_two_nats(let_pair(variable(0), body))
}

fn on_two_nats(body: Term) -> Function {
    let two = product(&nat(), &nat());
    Function { parameters: vec![two.clone()], result: two, body }
}

/// The same steered by k and an ancilla together: let y = plus (plus a k) n in (k, y).
pub fn under_ancilla(plus: usize) -> Function {
    let both = call(plus, vec![variable(0), variable(2)]);
    let body = let_one(call(plus, vec![both, variable(3)]), pair(variable(2), variable(4)));
    let two = product(&nat(), &nat());
    Function { parameters: vec![nat(), two.clone()], result: two, body: let_pair(variable(1), body) }
}

/// Each element of a list with the one before it added, the first with the ancilla: the head steers how the tail is converted, and
/// comes back by its own sum.
pub fn running_sums(itself: usize, plus: usize) -> Function {
    let sum = call(plus, vec![variable(0), variable(3)]);
    let full = let_one(call(itself, vec![variable(3), variable(4)]), cons(&nat(), sum, variable(5)));
    Function {
        parameters: vec![nat(), list(&nat())],
        result: list(&nat()),
        body: match_list(&nat(), 1, 2, nil(&nat()), full),
    }
}

/// (k, list) gives (k, the list's running sums from k on).
pub fn over_list(running_sums: usize) -> Function {
    let body = let_one(call(running_sums, vec![variable(1), variable(2)]), pair(variable(1), variable(3)));
    let record = product(&nat(), &list(&nat()));
    Function { parameters: vec![record.clone()], result: record, body: let_pair(variable(0), body) }
}

/// let y = (let z = plus k n in z) in (k, y): the outer let alone helps.
pub fn helped_by_outer(plus: usize) -> Function {
    let inner = let_one(call(plus, vec![variable(1), variable(2)]), variable(3));
    on_two_nats(let_pair(variable(0), let_one(inner, pair(variable(1), variable(3)))))
}

/// let y = (let z = plus k n in (k, z)) in y: the inner let alone helps.
pub fn helped_by_inner(plus: usize) -> Function {
    let inner = let_one(call(plus, vec![variable(1), variable(2)]), pair(variable(1), variable(3)));
    on_two_nats(let_pair(variable(0), let_one(inner, variable(3))))
}

/// A unit u and a 1+1: the left branch alone meets u, which steers the call in the bound term. `beside` gives its value with u.
pub fn with_unmet_unit(beside: usize) -> Function {
    let named = call(beside, vec![variable(1), variable(2)]);
    let branches = case(variable(3), inl(&boolean(), variable(1)), inr(&boolean(), variable(5)));
    Function {
        parameters: vec![product(&unit_type(), &boolean())],
        result: boolean(),
        body: let_pair(variable(0), let_pair(named, branches)),
    }
}

/// An ancilla a and a dynamic x: f (let k = a in let y = plus k a in (k, y)) x. `beside` gives its value with the ancilla.
pub fn in_argument(plus: usize, beside: usize) -> Function {
    let inner = let_one(call(plus, vec![variable(2), variable(0)]), pair(variable(2), variable(3)));
    let two = product(&nat(), &nat());
    Function {
        parameters: vec![nat(), boolean()],
        result: product(&boolean(), &two),
        body: call(beside, vec![let_one(variable(0), inner), variable(1)]),
    }
}

/// The value with all that steers it: n gives (n, (a, b)).
pub fn beside(ancillae: &[Type], ty: &Type) -> Function {
    let shown = |number: usize| (variable(number), ancillae[number].clone());
    let (body, result) =
        (0..ancillae.len()).rev().fold((variable(ancillae.len()), ty.clone()), |(term, ty), number| {
            let (ancilla, ancilla_type) = shown(number);
            (pair(term, ancilla), product(&ty, &ancilla_type))
        });
    with_ancillae(ancillae, ty, result, body)
}

/// The same as a sum's left side, so that a case may decide on it.
pub fn tagged(ancillae: &[Type], ty: &Type) -> Function {
    let plain = beside(ancillae, ty);
    let result = sum(&plain.result, &unit_type());
    let body = inl(&result, plain.body);
    with_ancillae(ancillae, ty, result, body)
}

/// The value alone.
pub fn unsteered(ancillae: &[Type], ty: &Type) -> Function {
    with_ancillae(ancillae, ty, ty.clone(), variable(ancillae.len()))
}

fn with_ancillae(ancillae: &[Type], ty: &Type, result: Type, body: Term) -> Function {
    Function { parameters: ancillae.iter().chain([ty]).cloned().collect(), result, body }
}
