//! Functions with cases that choose by an ancilla (02, F-3), and with cases near to them that do not.

use super::{successor, zero};
use crate::draft::*;

/// q, or q flipped, as a scrutinee decides: the left branch is a dynamic variable, which may yield anything. So many variables are in
/// scope around the case, q among them.
fn kept_or_flipped(scrutinee: Term, q: usize, in_scope: usize) -> Term {
    case(scrutinee, variable(q), flipped(q, in_scope + 1))
}

/// 1+1 with its injections exchanged; the branches bind the next variable.
pub fn flipped(q: usize, in_scope: usize) -> Term {
    case(variable(q), inr(&boolean(), variable(in_scope)), inl(&boolean(), variable(in_scope)))
}

/// A 1+1 with so many ancillae of that type before it.
fn on_bits(ancillae: usize, body: Term) -> Function {
    Function { parameters: vec![boolean(); ancillae + 1], result: boolean(), body }
}

/// P12 with s as an ancilla, and q dynamic.
pub fn flipped_by_ancilla() -> Function {
    on_bits(1, kept_or_flipped(variable(0), 1, 2))
}

/// q flipped if just one of two ancillae is inr: a choice in each branch of a choice.
pub fn flipped_by_either() -> Function {
    let one = kept_or_flipped(variable(1), 2, 4);
    let other = case(variable(1), flipped(2, 5), variable(2));
    on_bits(2, case(variable(0), one, other))
}

/// q flipped if s is inl: a choice decides for a choice.
pub fn flipped_by_choice() -> Function {
    on_bits(1, kept_or_flipped(flipped(0, 2), 1, 2))
}

/// The same by a call of `not`, in which s is dynamic.
pub fn flipped_by_call(not: usize) -> Function {
    on_bits(1, kept_or_flipped(call(not, vec![variable(0)]), 1, 2))
}

/// The outer case chooses by s. The inner one decides on a variable that is bound around it, in the outer one's scrutinee: it gives
/// inl either way, as P10 does, and first match holds for it.
pub fn first_match_inside() -> Function {
    let same = case(variable(2), inl(&boolean(), variable(3)), inl(&boolean(), variable(3)));
    on_bits(1, kept_or_flipped(let_one(variable(0), same), 1, 2))
}

/// Of a pair (s, q) gives let y = (q, flipped if s is inr) in (s, y), where an ancilla argument in the scrutinee names s: the let
/// helps that naming (F-2), and the case stays under first match. `ancilla` gives its ancilla.
pub fn named_in_argument(ancilla: usize) -> Function {
    let scrutinee = call(ancilla, vec![variable(1), Term::Unit]);
    let body = let_one(kept_or_flipped(scrutinee, 2, 3), pair(variable(1), variable(3)));
    let two = product(&boolean(), &boolean());
    Function { parameters: vec![two.clone()], result: two, body: let_pair(variable(0), body) }
}

/// The same with s as an ancilla: an ancilla argument that names it leaves the choice to it.
pub fn ancilla_in_argument(ancilla: usize) -> Function {
    on_bits(1, kept_or_flipped(call(ancilla, vec![variable(0), Term::Unit]), 1, 2))
}

/// A 1+1 that is an ancilla, given for a unit.
pub fn given_ancilla() -> Function {
    Function { parameters: vec![boolean(), unit_type()], result: boolean(), body: variable(0) }
}

/// An ancilla s, and a pair of a unit u and q. The scrutinee is s, but uses u on the way, so that the case stays under first match.
pub fn beside_dynamic_unit() -> Function {
    let scrutinee = let_one(variable(2), variable(0));
    Function {
        parameters: vec![boolean(), product(&unit_type(), &boolean())],
        result: boolean(),
        body: let_pair(variable(1), kept_or_flipped(scrutinee, 3, 4)),
    }
}

/// q flipped by a scrutinee that names no variable, bound inside or outside.
pub fn flipped_by_constant() -> Function {
    on_bits(0, kept_or_flipped(inr(&boolean(), Term::Unit), 0, 1))
}

/// An ancilla of 1+(1+1): inr b gives (b, (b, q)), inl gives what inr inl does.
pub fn shown_twice() -> Function {
    let shown = |first: Term, second: Term| pair(first, pair(second, variable(1)));
    let left = || inl(&boolean(), Term::Unit);
    let bit = boolean();
    Function {
        parameters: vec![sum(&unit_type(), &bit), bit.clone()],
        result: product(&bit, &product(&bit, &bit)),
        body: case(variable(0), shown(left(), left()), shown(variable(2), variable(2))),
    }
}

/// A Nat n that a scrutinee gives, and q: (0, q) for 0, else (n - 1, q).
fn before(scrutinee: Term, ancillae: usize) -> Function {
    let mut parameters = vec![nat(); ancillae];
    parameters.push(boolean());
    let q = || variable(ancillae);
    Function {
        parameters,
        result: product(&nat(), &boolean()),
        body: case(unroll(&nat(), scrutinee), pair(zero(), q()), pair(variable(ancillae + 1), q())),
    }
}

/// n is the sum of two ancillae.
pub fn before_sum(plus: usize) -> Function {
    before(call(plus, vec![variable(0), variable(1)]), 2)
}

/// n is an ancilla's successor.
pub fn before_successor() -> Function {
    before(successor(variable(0)), 1)
}

/// A choice by s in an ancilla argument, which gives inl either way; `beside` gives q with it.
pub fn chosen_argument(beside: usize) -> Function {
    let same = case(variable(0), inl(&boolean(), variable(2)), inl(&boolean(), variable(2)));
    Function {
        parameters: vec![boolean(), boolean()],
        result: product(&boolean(), &boolean()),
        body: call(beside, vec![same, variable(1)]),
    }
}

/// The same decided by a variable that is bound in the argument, but outside the case.
pub fn matched_argument(beside: usize) -> Function {
    let same = case(variable(2), inl(&boolean(), variable(3)), inl(&boolean(), variable(3)));
    Function { body: call(beside, vec![let_one(variable(0), same), variable(1)]), ..chosen_argument(beside) }
}

/// (s, q) gives let y = f s q in (s, y): s is dynamic here and steers the call (F-2), in which it chooses.
pub fn steered_to_choose(flipped_by_ancilla: usize) -> Function {
    let two = product(&boolean(), &boolean());
    let steered = call(flipped_by_ancilla, vec![variable(1), variable(2)]);
    let body = let_pair(variable(0), let_one(steered, pair(variable(1), variable(3))));
    Function { parameters: vec![two.clone()], result: two, body }
}

/// An ancilla s and a dynamic d. Of d's inl a choice by s makes inl or inr, of its inr comes inr: may-yield takes either branch of the
/// choice, whatever s is.
pub fn choice_on_the_left() -> Function {
    let chosen = case(variable(0), inl(&boolean(), variable(2)), inr(&boolean(), variable(2)));
    on_bits(1, case(variable(1), chosen, inr(&boolean(), variable(2))))
}

/// So many choices by s, each the right branch of the one around it; the left branches are q, and so is the innermost right one.
pub fn choices_to_the_right(count: usize) -> Function {
    on_bits(1, (0..count).fold(variable(1), |right, _| case(variable(0), variable(1), right)))
}

/// The same, each the left branch of the one around it.
pub fn choices_to_the_left(count: usize) -> Function {
    on_bits(1, (0..count).fold(variable(1), |left, _| case(variable(0), left, variable(1))))
}
