//! Calls steered by a dynamic variable (02, F-2): the document's own text, each way of help, and each kind that is refused.

use super::{check, run};
use crate::calls::{answer, Answer, Call, Direction};
use crate::draft::*;
use crate::limits::FUEL;
use crate::make::steer::converters;
use crate::make::steer::refused::REFUSED;
use crate::make::steer::wide::{around, at_the_limit};
use crate::rng::Rng;
use crate::samples::steering::{beside, by_first, helped_by_inner, helped_by_outer, in_argument, with_unmet_unit};
use crate::samples::{list_bytes, nat_bytes, plus};

pub fn steering() -> Vec<Call> {
    let mut calls = by_plus();
    let unmet = Draft { functions: vec![with_unmet_unit(1), beside(&[unit_type()], &boolean())] }.bytes();
    for record in [[3, 0, 1, 0], [3, 0, 2, 0]] {
        calls.extend(both_ways(&unmet, 0, &[], &record));
    }
    let two = product(&nat(), &nat());
    let inside = Draft { functions: vec![in_argument(1, 2), plus(1), beside(&[two], &boolean())] }.bytes();
    calls.extend(both_ways(&inside, 0, &nat_bytes(2), &[2, 0]));
    calls.extend(converted());
    calls.extend(widest());
    let mut rng = Rng::new(1);
    calls.extend(REFUSED.iter().map(|kind| check(kind.draft(&mut rng).bytes())));
    calls
}

/// Document 02's text, and with a let around the bound term, helped by either. No sum of 2 is 1, as in P4.
fn by_plus() -> Vec<Call> {
    let two = |first, second| [&[3], &nat_bytes(first)[..], &nat_bytes(second)].concat();
    let mut calls = Vec::new();
    for main in [by_first(1), helped_by_outer(1), helped_by_inner(1)] {
        let program = Draft { functions: vec![main, plus(1)] }.bytes();
        calls.push(check(program.clone()));
        calls.extend(both_ways(&program, 0, &[], &two(2, 3)));
        calls.push(run(&program, Direction::Backward, 0, FUEL, &[], &two(2, 1)));
    }
    calls
}

/// Each converter on a record, and back.
fn converted() -> Vec<Call> {
    let program = converters().bytes();
    let nats = [3, 1, 4].map(nat_bytes);
    let (two, list) = ([&[3], &nats[0][..], &nats[1]].concat(), list_bytes(&nats));
    let record = [&[3], &nats[2][..], &list].concat();
    let one = nat_bytes(1);
    [(1, &[][..], &two), (2, &[], &two), (3, &one, &two), (4, &one, &list), (5, &[], &record)]
        .into_iter()
        .flat_map(|(function, ancillae, value)| both_ways(&program, function, ancillae, value))
        .collect()
}

/// The most lets, namings and variables; what is written later may have the lower place.
fn widest() -> Vec<Call> {
    let mut calls: Vec<Call> = at_the_limit().iter().map(|draft| check(draft.bytes())).collect();
    calls.push(check(around(2, 100, None).backwards()));
    let under_all = at_the_limit().swap_remove(0).bytes();
    calls.extend(both_ways(&under_all, 0, &[], &[3, 1, 0, 2, 0]));
    calls
}

/// A call, and the call back with just the steps that it takes for fuel.
fn both_ways(program: &[u8], function: u16, ancillae: &[u8], value: &[u8]) -> [Call; 2] {
    let forward = run(program, Direction::Forward, function, FUEL, ancillae, value);
    let Answer::Value { value, steps } = answer(&forward) else { unreachable!("a call that is answered") };
    let backward = run(program, Direction::Backward, function, steps as u16, ancillae, &value);
    [forward, backward]
}
