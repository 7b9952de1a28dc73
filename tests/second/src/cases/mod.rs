//! Calls with a known point: section 6's cases, each limit exactly and one past it, the readers of a journal, steered calls, choices
//! by an ancilla, and programs over large types.

mod choosing;
mod large;
mod limits;
mod readers;
mod steering;

use crate::calls::{answer, Answer, Call, ConvertCall, Direction, RunCall};
use crate::draft::{nat, Draft, Function};
use crate::limits::{workspace, FUEL, VALUE_BYTES};
use crate::samples::choosing::flipped_by_ancilla;
use crate::samples::{dup, flipped_by_part, nat_bytes, plus, same_in_both_branches, unused_sum};

const PLUS: u16 = 0;
const DUP: u16 = 1;

pub fn cases() -> Vec<Call> {
    let program = Draft { functions: vec![plus(0), dup(&nat())] }.bytes();
    let forward = |function, fuel, ancillae: &[u8], value: &[u8]| {
        run(&program, Direction::Forward, function, fuel, ancillae, value)
    };
    let backward = |function, ancillae: &[u8], value: &[u8]| {
        run(&program, Direction::Backward, function, FUEL, ancillae, value)
    };
    let pair = |first, second| [&[3], &nat_bytes(first)[..], &nat_bytes(second)].concat();
    let (zero, two) = (nat_bytes(0), nat_bytes(2));
    let mut calls = vec![
        check(program.clone()),
        forward(PLUS, FUEL, &two, &zero),
        forward(PLUS, 28, &two, &nat_bytes(3)),
        forward(PLUS, 27, &two, &nat_bytes(3)),
        backward(PLUS, &two, &nat_bytes(5)),
        backward(PLUS, &two, &nat_bytes(1)),
        forward(PLUS, 2044, &zero, &nat_bytes(255)),
        forward(PLUS, FUEL, &zero, &nat_bytes(256)),
        forward(DUP, FUEL, &[], &nat_bytes(254)),
        forward(DUP, FUEL, &[], &nat_bytes(255)),
        backward(DUP, &[], &pair(3, 4)),
        backward(DUP, &[], &pair(3, 3)),
    ];
    calls.extend(first_match());
    calls.extend(journal(&program));
    calls.extend(limits::at_the_limits());
    calls.extend(readers::readings(&program));
    calls.extend(steering::steering());
    calls.extend(choosing::choosing());
    calls.extend(large::large());
    calls
}

/// P10 to P12.
fn first_match() -> Vec<Call> {
    let program = |function: Function| Draft { functions: vec![function] }.bytes();
    let forward =
        |function: Function, value: &[u8]| run(&program(function), Direction::Forward, 0, FUEL, &[], value);
    vec![
        forward(same_in_both_branches(), &[1, 0]),
        forward(same_in_both_branches(), &[2, 0]),
        check(program(unused_sum())),
        forward(flipped_by_part(), &[3, 1, 0, 2, 0]),
        forward(flipped_by_part(), &[3, 2, 0, 1, 0]),
        forward(flipped_by_part(), &[3, 2, 0, 2, 0]),
        run(&program(flipped_by_ancilla()), Direction::Forward, 0, FUEL, &[1, 0], &[2, 0]),
        run(&program(flipped_by_ancilla()), Direction::Forward, 0, FUEL, &[2, 0], &[1, 0]),
        run(&program(flipped_by_ancilla()), Direction::Backward, 0, FUEL, &[2, 0], &[1, 0]),
    ]
}

/// P13: each call on the journal that the one before it left.
fn journal(program: &[u8]) -> [Call; 3] {
    let open = Call::Open {
        workspace: workspace(0),
        program: program.to_vec(),
        record: nat_bytes(3),
        journal: vec![0; 40],
    };
    let convert = Call::Convert(ConvertCall {
        workspace: workspace(28),
        fuel: 28,
        function: PLUS,
        program: program.to_vec(),
        ancillae: nat_bytes(2),
        journal: left(&open),
    });
    let rollback =
        Call::Rollback { workspace: workspace(28), fuel: 28, program: program.to_vec(), journal: left(&convert) };
    [open, convert, rollback]
}

/// P13's journal as it is opened, and after the conversion.
fn journal_before_and_after(program: &[u8]) -> (Vec<u8>, Vec<u8>) {
    let [open, convert, _] = journal(program);
    (left(&open), left(&convert))
}

/// The journal as an accepted call leaves it.
fn left(call: &Call) -> Vec<u8> {
    match answer(call) {
        Answer::Opened { journal } | Answer::Held { journal, .. } => journal,
        other => unreachable!("a call that is accepted: {other:?}"),
    }
}

fn check(program: Vec<u8>) -> Call {
    Call::Check { workspace: workspace(0), program }
}

fn run(program: &[u8], direction: Direction, function: u16, fuel: u16, ancillae: &[u8], value: &[u8]) -> Call {
    Call::Run(RunCall {
        direction,
        workspace: workspace(fuel),
        output: VALUE_BYTES,
        fuel,
        function,
        program: program.to_vec(),
        ancillae: ancillae.to_vec(),
        value: value.to_vec(),
    })
}
