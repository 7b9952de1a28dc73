//! Programs at section 1's limits and one past them; most are only checked.

use super::types::doubled;
use crate::assemble::Assembler;
use crate::draft::*;
use crate::limits::{FUNCTIONS, PARAMETERS, PROGRAM_BYTES, TERMS, TYPES, TYPE_NODES, VARIABLES};
use crate::rng::Rng;

pub fn edge_program(rng: &mut Rng) -> Vec<u8> {
    match rng.below(14) {
        0 => counted(rng),
        1 | 12 | 13 => parameters(rng),
        2..=4 => scope(rng),
        5 | 6 => named_type(rng),
        7 | 8 => pair_size(rng),
        9 => unfolded_size(rng),
        10 => unnamed_types(rng),
        _ => self_reference(rng),
    }
}

/// Entries up to a count limit or one past it; the last of them may be malformed.
fn counted(rng: &mut Rng) -> Vec<u8> {
    let over = rng.below(2);
    let mut assembler = Assembler::default();
    let broken = rng.chance(30);
    match rng.below(20) {
        0 => return vec![rng.below(2) as u8; PROGRAM_BYTES + over],
        1 | 2 => {
            let chain = TERMS + over - 2;
            let boolean = boolean_type(&mut assembler);
            let mut term = assembler.unit();
            for _ in 0..chain {
                term = assembler.pair(term, term);
            }
            assembler.inl(boolean, term);
        }
        3..=11 => {
            for _ in 0..TYPES + over - 1 {
                assembler.unit_type();
            }
            assembler.type_entry(if broken { vec![9] } else { vec![4, 0] });
        }
        _ => {
            let unit = assembler.unit_type();
            for _ in 0..FUNCTIONS + over {
                let body = assembler.variable(0);
                assembler.function(unit, &[unit], body);
            }
        }
    }
    assembler.bytes()
}

fn boolean_type(assembler: &mut Assembler) -> u16 {
    let unit = assembler.unit_type();
    assembler.sum(unit, unit)
}

fn parameters(rng: &mut Rng) -> Vec<u8> {
    let mut assembler = Assembler::default();
    let unit = assembler.unit_type();
    let count = *rng.pick(&[0, 1, PARAMETERS, PARAMETERS + 1, PARAMETERS + 2, 40]);
    let body = if rng.chance(50) {
        let terms: Vec<u16> = (0..*rng.pick(&[count.max(1), 1, 9])).map(|_| assembler.unit()).collect();
        assembler.call(0, &terms)
    } else {
        assembler.variable(0)
    };
    assembler.function(unit, &vec![unit; count], body);
    let mut bytes = assembler.bytes();
    if rng.chance(10) {
        bytes.pop();
    }
    bytes
}

/// Binders up to the limit of variables, or past it at a let, a let pair or a case.
fn scope(rng: &mut Rng) -> Vec<u8> {
    let parameters = rng.between(1, PARAMETERS);
    let mut kinds = Vec::new();
    let mut in_scope = parameters;
    let last = VARIABLES + rng.below(3) - 1;
    while in_scope <= last {
        let kind = rng.below(3);
        in_scope += if kind == 1 { 2 } else { 1 };
        kinds.push(kind);
    }
    let mut term = variable(rng.between(in_scope - 1, in_scope));
    for &kind in kinds.iter().rev() {
        term = match kind {
            0 => let_one(Term::Unit, term),
            1 => let_pair(pair(Term::Unit, Term::Unit), term),
            _ if rng.chance(50) => case(inl(&boolean(), Term::Unit), Term::Unit, term),
            _ => case(inl(&boolean(), Term::Unit), term, Term::Unit),
        };
    }
    let function = Function { parameters: vec![unit_type(); parameters], result: unit_type(), body: term };
    Draft { functions: vec![function] }.shuffled(rng)
}

/// A type near 1,024 nodes, or not closed, named by a function or by a term.
fn named_type(rng: &mut Rng) -> Vec<u8> {
    let ty = match rng.below(6) {
        0 => doubled(unit_type(), 9),
        1 => recursive(&doubled(unit_type(), 9)),
        2 => sum(&doubled(unit_type(), 9), &unit_type()),
        3 => doubled(unit_type(), rng.between(10, 12)),
        4 => sum(&unit_type(), &bound(rng.below(2) as u8)),
        _ => recursive(&sum(&unit_type(), &bound(rng.below(3) as u8))),
    };
    let of = |parameters: Vec<Type>, result: Type, body: Term| Function { parameters, result, body };
    let unit = unit_type();
    let function = match rng.below(6) {
        0 => of(vec![ty.clone()], ty, variable(0)),
        1 => of(vec![ty, unit.clone()], unit, variable(1)),
        2 => of(vec![unit.clone()], ty, variable(0)),
        3 => of(vec![unit.clone()], unit, inl(&ty, variable(0))),
        4 => of(vec![unit.clone()], unit, roll(&ty, variable(0))),
        _ => of(vec![unit.clone()], unit, unroll(&ty, inr(&ty, variable(0)))),
    };
    Draft { functions: vec![function] }.shuffled(rng)
}

/// The type of a pair, near 1,024 nodes.
fn pair_size(rng: &mut Rng) -> Vec<u8> {
    let left = doubled(unit_type(), 8);
    let layers = rng.below(3);
    let right = (0..layers).fold(doubled(unit_type(), 8), |ty, _| recursive(&ty));
    let body = match rng.below(3) {
        0 => pair(variable(0), variable(1)),
        1 => let_pair(pair(variable(0), variable(1)), pair(variable(3), variable(4))),
        _ => let_one(pair(variable(1), variable(0)), let_pair(variable(3), pair(variable(5), variable(4)))),
    };
    // A function may not name the type that is too large for the pair.
    let result = if layers == 2 { unit_type() } else { product(&left, &right) };
    Draft { functions: vec![Function { parameters: vec![left, right, unit_type()], result, body }] }.shuffled(rng)
}

/// An unfolding near 1,024 nodes: a recursive type over m nodes, k of them its variable, unfolds to m (k + 1) nodes.
fn unfolded_size(rng: &mut Rng) -> Vec<u8> {
    let (variables, nodes) =
        *rng.pick(&[(1, 512), (3, 256), (7, 128), (15, 64), (4, 205), (2, 341), (2, 342), (1, 513)]);
    let ty = recursive(&tree_of(variables, nodes));
    let unfolded = unfold(&ty);
    let within = variables * nodes + nodes <= TYPE_NODES as usize;
    let opened = if within { unfolded.clone() } else { unit_type() };
    let function = match rng.below(3) {
        0 => Function { parameters: vec![ty.clone()], result: opened, body: unroll(&ty, variable(0)) },
        1 => Function { parameters: vec![opened], result: ty.clone(), body: roll(&ty, variable(0)) },
        _ => Function {
            parameters: vec![ty.clone()],
            result: ty.clone(),
            body: roll(&ty, unroll(&ty, variable(0))),
        },
    };
    Draft { functions: vec![function] }.shuffled(rng)
}

/// A tree of so many nodes, so many of them the nearest variable. Its bulk is doubled, so that its entries are few.
fn tree_of(variables: usize, nodes: usize) -> Type {
    let mut ty = (1..variables).fold(bound(0), |ty, _| product(&bound(0), &ty));
    let mut missing = nodes - (2 * variables - 1);
    if missing % 2 == 1 {
        ty = product(&recursive(&unit_type()), &ty);
        missing -= 3;
    }
    for power in (1..10).filter(|power| missing & (1 << power) != 0) {
        ty = product(&doubled(unit_type(), power - 1), &ty);
    }
    ty
}

/// Entries that nothing names: open, or exponentially large as trees.
fn unnamed_types(rng: &mut Rng) -> Vec<u8> {
    let mut assembler = Assembler::default();
    let mut ty = if rng.chance(50) { assembler.unit_type() } else { assembler.bound(7) };
    for _ in 0..rng.between(10, 90) {
        ty = match rng.below(4) {
            0 => assembler.sum(ty, ty),
            1 => assembler.recursive(ty),
            _ => assembler.product(ty, ty),
        };
    }
    let unit = assembler.unit_type();
    let body = assembler.variable(0);
    let named = if rng.chance(70) { unit } else { ty };
    assembler.function(named, &[unit], body);
    assembler.bytes()
}

/// A recursive type over its own variable alone unfolds to itself; over unit it is not equal to its unfolding.
fn self_reference(rng: &mut Rng) -> Vec<u8> {
    let ty = *rng.pick(&[0, 1, 2]);
    let ty = match ty {
        0 => recursive(&bound(0)),
        1 => recursive(&recursive(&bound(rng.below(2) as u8))),
        _ => recursive(&unit_type()),
    };
    let body = match rng.below(4) {
        0 => variable(0),
        1 => roll(&ty, variable(0)),
        2 => unroll(&ty, variable(0)),
        _ => roll(&ty, unroll(&ty, variable(0))),
    };
    let result = if rng.chance(50) { ty.clone() } else { unfold(&ty) };
    Draft { functions: vec![Function { parameters: vec![ty], result, body }] }.shuffled(rng)
}
