//! Random closed types, and terms for their smallest values.

use crate::draft::*;
use crate::rng::Rng;

/// A closed type that has a value, small enough that terms over it stay small.
pub fn random_type(rng: &mut Rng) -> Type {
    loop {
        let ty = match rng.below(10) {
            0 | 1 => nat(),
            2 => boolean(),
            3 => list(&inhabited(rng, 1)),
            4 => recursive(&sum(&unit_type(), &product(&bound(0), &bound(0)))),
            5 => recursive(&tree(rng, 3, 1)),
            _ => tree(rng, 3, 0),
        };
        if smallest(&ty).is_some_and(|size| size < 40) {
            return ty;
        }
    }
}

fn inhabited(rng: &mut Rng, depth: usize) -> Type {
    loop {
        let ty = tree(rng, depth, 0);
        if smallest(&ty).is_some() {
            return ty;
        }
    }
}

/// A tree of types under `enclosing` recursive entries.
fn tree(rng: &mut Rng, depth: usize, enclosing: u8) -> Type {
    if depth == 0 || rng.chance(15) {
        if enclosing > 0 && rng.chance(60) {
            return bound(rng.below(enclosing as usize) as u8);
        }
        return if rng.chance(60) { unit_type() } else { boolean() };
    }
    match rng.below(8) {
        0..=2 => product(&tree(rng, depth - 1, enclosing), &tree(rng, depth - 1, enclosing)),
        3..=5 => sum(&tree(rng, depth - 1, enclosing), &tree(rng, depth - 1, enclosing)),
        6 => recursive(&tree(rng, depth - 1, enclosing + 1)),
        _ => nat(),
    }
}

/// Bytes of the type's smallest value; none if it has no value. A smallest value never needs a recursive type inside
/// itself, so a bound variable counts as having none.
pub fn smallest(ty: &Type) -> Option<usize> {
    match &**ty {
        TypeTree::Unit => Some(1),
        TypeTree::Bound(_) => None,
        TypeTree::Recursive(inner) => smallest(inner).map(|size| size + 1),
        TypeTree::Product(a, b) => Some(1 + smallest(a)? + smallest(b)?),
        TypeTree::Sum(a, b) => match (smallest(a), smallest(b)) {
            (Some(a), Some(b)) => Some(1 + a.min(b)),
            (a, b) => a.or(b).map(|size| size + 1),
        },
    }
}

pub fn left_is_smaller(left: &Type, right: &Type) -> bool {
    match (smallest(left), smallest(right)) {
        (Some(left), Some(right)) => left <= right,
        (left, _) => left.is_some(),
    }
}

/// A term without variables for the smallest value of an inhabited type.
pub fn smallest_term(ty: &Type) -> Term {
    match &**ty {
        TypeTree::Unit | TypeTree::Bound(_) => Term::Unit,
        TypeTree::Product(a, b) => pair(smallest_term(a), smallest_term(b)),
        TypeTree::Sum(a, b) if left_is_smaller(a, b) => inl(ty, smallest_term(a)),
        TypeTree::Sum(_, b) => inr(ty, smallest_term(b)),
        TypeTree::Recursive(_) => roll(ty, smallest_term(&unfold(ty))),
    }
}

/// `doublings` products of a type with itself: an exponentially large tree of few entries.
pub fn doubled(mut ty: Type, doublings: usize) -> Type {
    for _ in 0..doublings {
        ty = product(&ty, &ty);
    }
    ty
}
