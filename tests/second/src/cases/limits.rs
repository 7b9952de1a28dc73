//! Each limit of sections 1, 2 and 5, exactly and one past it.

use super::{check, run};
use crate::assemble::Assembler;
use crate::calls::{Call, ConvertCall, Direction, RunCall};
use crate::draft::*;
use crate::journal::{Conversion, Journal};
use crate::limits::{
    workspace, ANCILLA_BYTES, CONVERSIONS, FUEL, FUNCTIONS, PARAMETERS, TERMS, TYPES, VALUE_BYTES, VARIABLES,
};
use crate::samples::{nat_bytes, not};

pub fn at_the_limits() -> Vec<Call> {
    let mut calls: Vec<Call> = programs().into_iter().map(check).collect();
    calls.extend(values());
    calls.extend(lengths());
    calls.extend(journals());
    calls
}

fn programs() -> Vec<Vec<u8>> {
    let mut programs = Vec::new();
    for past in 0..2 {
        programs.push([1, 0, 1, 0].repeat(TYPES + past));
        programs.push(nested_lets(TERMS + past));
        programs.push(identities(FUNCTIONS + past));
        programs.push(parameters(PARAMETERS + past));
        programs.push(parameters(1 - past));
        programs.extend(binders(VARIABLES + past));
        programs.extend(large_types(past));
        programs.push(doubling_types(past == 1));
    }
    programs
}

fn program_of(parameters: Vec<Type>, result: &Type, body: Term) -> Vec<u8> {
    Draft { functions: vec![Function { parameters, result: result.clone(), body }] }.bytes()
}

/// So many terms: lets bound to lets, each with unit for its body, under an inl where the number is even.
fn nested_lets(terms: usize) -> Vec<u8> {
    let mut a = Assembler::default();
    let unit = a.unit_type();
    let boolean = a.sum(unit, unit);
    let mut term = a.unit();
    for _ in 0..(terms - 1) / 2 {
        let body = a.unit();
        term = a.let_one(term, body);
    }
    if terms.is_multiple_of(2) {
        term = a.inl(boolean, term);
    }
    a.function(boolean, &[unit], term);
    a.bytes()
}

fn identities(count: usize) -> Vec<u8> {
    let unit = unit_type();
    let identity = Function { parameters: vec![unit.clone()], result: unit, body: variable(0) };
    Draft { functions: vec![identity; count] }.bytes()
}

fn parameters(count: usize) -> Vec<u8> {
    program_of(vec![unit_type(); count], &unit_type(), variable(count.saturating_sub(1)))
}

/// So many variables in scope, bound by lets, let pairs or cases under one parameter or two.
fn binders(in_scope: usize) -> Vec<Vec<u8>> {
    let unit = unit_type();
    let under = |parameters: usize, count: usize, binder: fn(Term) -> Term| {
        let body = (0..count).fold(variable(in_scope - 1), |body, _| binder(body));
        program_of(vec![unit.clone(); parameters], &unit, body)
    };
    let odd = 1 + in_scope % 2;
    vec![
        under(1, in_scope - 1, |body| let_one(Term::Unit, body)),
        under(3 - odd, (in_scope + odd - 3) / 2, |body| let_pair(pair(Term::Unit, Term::Unit), body)),
        under(1, in_scope - 1, |body| case(inl(&boolean(), Term::Unit), body, Term::Unit)),
        under(1, in_scope - 1, |body| case(inl(&boolean(), Term::Unit), Term::Unit, body)),
    ]
}

/// Types of 1,024 nodes, or `past` more: named, of a pair, and of an unfolding.
fn large_types(past: usize) -> Vec<Vec<u8>> {
    let unit = unit_type();
    let doubled = |doublings: usize| (0..doublings).fold(unit_type(), |ty, _| product(&ty, &ty));
    let layers = |ty: Type, count: usize| (0..count).fold(ty, |ty, _| recursive(&ty));
    let named = layers(doubled(9), 1 + past);
    let right = layers(doubled(8), 1 + past);
    let paired = if past == 0 { product(&doubled(8), &right) } else { unit.clone() };
    // Over m nodes, one of them its variable, a recursive type unfolds to 2 m: 512 here, or 513.
    let bulk = (1..8).fold(unit_type(), |ty, doublings| product(&doubled(doublings), &ty));
    let unfolding = recursive(&product(&bound(0), &layers(bulk, 1 + past)));
    let opened = if past == 0 { unfold(&unfolding) } else { unit.clone() };
    vec![
        program_of(vec![named.clone()], &named, variable(0)),
        program_of(vec![doubled(8), right, unit], &paired, pair(variable(0), variable(1))),
        program_of(vec![unfolding.clone()], &opened, unroll(&unfolding, variable(0))),
    ]
}

/// As many types as there can be, each a product of the one before with itself: the last has over 2^255 nodes as a tree.
/// That is accepted, and quickly, unless a function names it.
fn doubling_types(named: bool) -> Vec<u8> {
    let mut a = Assembler::default();
    let unit = a.unit_type();
    let last = (1..TYPES).fold(unit, |ty, _| a.product(ty, ty));
    let body = a.variable(0);
    let parameter = if named { last } else { unit };
    a.function(parameter, &[parameter], body);
    a.bytes()
}

/// Given values and ancillae, and values made by a run either way.
fn values() -> Vec<Call> {
    let opened = unfold(&nat());
    let of =
        |parameters: Vec<Type>, result: &Type, body: Term| Function { parameters, result: result.clone(), body };
    let functions = vec![
        of(vec![opened.clone()], &opened, variable(0)),
        of(vec![opened.clone()], &nat(), roll(&nat(), variable(0))),
        of(vec![nat()], &opened, unroll(&nat(), variable(0))),
        of(vec![unit_type(), boolean(), nat(), unit_type()], &nat(), variable(2)),
    ];
    let program = Draft { functions }.bytes();
    let longest = [&[2], &nat_bytes(510)[..]].concat();
    let ancillae = |n: usize| [&[0, 1, 0], &nat_bytes(n)[..]].concat();
    debug_assert_eq!((longest.len(), ancillae(509).len()), (VALUE_BYTES, ANCILLA_BYTES));
    let past = [&[1], &longest[..]].concat();
    let call = |direction, function, ancillae: &[u8], value: &[u8]| {
        run(&program, direction, function, FUEL, ancillae, value)
    };
    vec![
        call(Direction::Forward, 0, &[], &longest),
        call(Direction::Forward, 0, &[], &past),
        call(Direction::Backward, 0, &[], &past),
        call(Direction::Forward, 1, &[], &longest),
        call(Direction::Forward, 1, &[], &[&[2], &nat_bytes(509)[..]].concat()),
        call(Direction::Backward, 2, &[], &longest),
        call(Direction::Forward, 3, &ancillae(509), &[0]),
        call(Direction::Forward, 3, &ancillae(510), &[0]),
        call(Direction::Backward, 3, &ancillae(509), &nat_bytes(509)),
    ]
}

/// Workspaces and outputs exactly long enough and one byte short, fuel exactly enough and one step short.
fn lengths() -> Vec<Call> {
    let program = Draft { functions: vec![not()] }.bytes();
    let call = |workspace: usize, fuel: u16, output: usize| {
        Call::Run(RunCall {
            direction: Direction::Forward,
            workspace,
            output,
            fuel,
            function: 0,
            program: program.clone(),
            ancillae: Vec::new(),
            value: vec![1, 0],
        })
    };
    vec![
        call(workspace(4), 4, 2),
        call(workspace(4) - 1, 4, 2),
        call(workspace(4), 4, 1),
        call(workspace(3), 3, 2),
        call(workspace(FUEL), FUEL, 2),
        call(workspace(FUEL) - 1, FUEL, 2),
        Call::Check { workspace: workspace(0) - 1, program: program.clone() },
    ]
}

/// 63 to 65 conversions standing, and ancillae of 1,024 bytes in an entry, or one more.
fn journals() -> Vec<Call> {
    let program = Draft { functions: vec![not()] }.bytes();
    let entry = |ancillae: usize| Conversion { function: 0, steps: 4, ancillae: vec![0; ancillae] };
    let written = |conversions: Vec<Conversion>, room: usize| {
        let journal = Journal { held: vec![1, 0], conversions };
        journal.write(journal.length() + room).unwrap_or_default()
    };
    let convert = |journal: Vec<u8>| {
        Call::Convert(ConvertCall {
            workspace: workspace(4),
            fuel: 4,
            function: 0,
            program: program.clone(),
            ancillae: Vec::new(),
            journal,
        })
    };
    let rollback =
        |journal: Vec<u8>| Call::Rollback { workspace: workspace(4), fuel: 4, program: program.clone(), journal };
    let mut calls = Vec::new();
    for standing in CONVERSIONS - 1..=CONVERSIONS + 1 {
        calls.push(convert(written(vec![entry(0); standing], 9)));
        calls.push(rollback(written(vec![entry(0); standing], 0)));
    }
    calls.push(convert(written(vec![entry(0); CONVERSIONS - 1], 8)));
    calls.push(rollback(written(vec![entry(ANCILLA_BYTES), entry(0)], 0)));
    calls.push(rollback(written(vec![entry(ANCILLA_BYTES + 1), entry(0)], 0)));
    calls
}
