//! The stack that the deepest calls need: the smallest thread in which they end, found by halving. Each try is a process
//! of its own, since a stack that is too small ends it.

use crate::engine;
use second::bench::largest_program;
use second::calls::{answer, Answer, Call, ConvertCall, Direction, RunCall};
use second::cases::cases;
use second::draft::{call, case, nat, sum, unit_type, variable, Draft, Function};
use second::limits::{workspace, FUEL, VALUE_BYTES};
use second::readers::{ReadCall, Reader};
use second::samples::choosing::before_sum;
use second::samples::{library, longest_journal, nat_bytes, plus, successor, zero};

/// What the harness's own threads get, in bytes.
pub const ROOM: usize = 64 << 20;

const MOST_KILOBYTES: u64 = 32 << 10;

/// What the deepest call may take: the figure that the documents state.
const LIMIT_KILOBYTES: u64 = 1088;

/// Stack is found to so many kilobytes.
const EXACT_TO: u64 = 16;

const GROUPS: [&str; 8] = ["check", "forward", "backward", "open", "convert", "rollback", "nurse", "workshop"];

pub fn report() -> Result<(), String> {
    for (group, name) in GROUPS.iter().enumerate() {
        let calls = deepest(group).len();
        let (mut short, mut enough) = (0, MOST_KILOBYTES);
        if !ends(group, enough) {
            return Err(format!("{name}: not answered in {enough} KB of stack"));
        }
        while enough - short > EXACT_TO {
            let middle = (short + enough) / 2;
            if ends(group, middle) {
                enough = middle;
            } else {
                short = middle;
            }
        }
        println!("{name}: {calls} calls, among them the deepest, in {enough} KB of stack");
        if enough > LIMIT_KILOBYTES {
            return Err(format!("{name}: more than {LIMIT_KILOBYTES} KB of stack"));
        }
    }
    Ok(())
}

/// Do the calls of a group end in a stack of that size?
fn ends(group: usize, kilobytes: u64) -> bool {
    let harness = std::env::current_exe().expect("the harness has a path");
    let words = ["deep".to_string(), group.to_string(), kilobytes.to_string()];
    std::process::Command::new(harness).args(words).output().is_ok_and(|ended| ended.status.success())
}

/// Answers the calls of a group in a thread of that size.
pub fn deep(group: u64, kilobytes: u64) -> Result<(), String> {
    let calls = deepest(group as usize);
    let thread = std::thread::Builder::new().stack_size((kilobytes << 10) as usize);
    let work = move || calls.iter().all(|call| engine::answer(call).is_ok());
    let answered = thread.spawn(work).map_err(|error| error.to_string())?.join();
    if answered.unwrap_or(false) {
        Ok(())
    } else {
        Err("not answered".to_string())
    }
}

/// The calls of a group that reach the limits of height, of terms and of a value's bytes.
fn deepest(group: usize) -> Vec<Call> {
    let mut calls = cases();
    let library = library().bytes();
    let tested = long_left_branch();
    calls.extend(
        [largest_program().0, tested.clone()].map(|program| Call::Check { workspace: workspace(0), program }),
    );
    for direction in [Direction::Forward, Direction::Backward] {
        calls.extend([255, 256].map(|n| run(&library, direction, &nat_bytes(0), nat_bytes(n))));
    }
    calls.push(run(&tested, Direction::Forward, &[], [&[2], &nat_bytes(501)[..]].concat()));
    calls.push(run(&tested, Direction::Backward, &[], nat_bytes(501)));
    calls.extend(deep_scrutinee());
    calls.extend(deep_choices());
    calls.extend(journal_calls(&library, nat_bytes(0), nat_bytes(255)));
    calls.extend(journal_calls(&tested, Vec::new(), [&[2], &nat_bytes(501)[..]].concat()));
    let (journal, output) = (longest_journal(), longest_journal().len());
    calls.extend(Reader::BOTH.map(|reader| Call::Read(ReadCall { reader, output, journal: journal.clone() })));
    calls.retain(|call| match call {
        Call::Check { .. } => group == 0,
        Call::Run(call) => group == if call.direction == Direction::Forward { 1 } else { 2 },
        Call::Open { .. } => group == 3,
        Call::Convert(_) => group == 4,
        Call::Rollback { .. } => group == 5,
        Call::Read(call) => group == if call.reader == Reader::Nurse { 6 } else { 7 },
    });
    calls
}

/// A case that chooses by the sum of two ancillae: backward its scrutinee runs forward, and comes near the limit of height.
fn deep_scrutinee() -> [Call; 2] {
    let program = Draft { functions: vec![before_sum(1), plus(1)] }.bytes();
    let ancillae = [nat_bytes(0), nat_bytes(254)].concat();
    let beside = [&[3], &nat_bytes(253)[..], &[1, 0]].concat();
    [(Direction::Forward, vec![1, 0]), (Direction::Backward, beside)]
        .map(|(direction, value)| run(&program, direction, &ancillae, value))
}

/// Choices in the branches of choices, thirty in a function that calls itself: backward each branch stays open for its variable.
fn deep_choices() -> [Call; 2] {
    let bit = sum(&unit_type(), &unit_type());
    let body = (0..29).fold(call(0, vec![variable(0), variable(1)]), |term, _| case(variable(0), term, variable(1)));
    let function = Function { parameters: vec![bit.clone(), bit.clone()], result: bit, body };
    let program = Draft { functions: vec![function] }.bytes();
    [Direction::Forward, Direction::Backward].map(|direction| run(&program, direction, &[1, 0], vec![1, 0]))
}

/// A journal opened, a conversion by function 0, and its rollback.
fn journal_calls(program: &[u8], ancillae: Vec<u8>, record: Vec<u8>) -> [Call; 3] {
    let left = |call: &Call| match answer(call) {
        Answer::Opened { journal } | Answer::Held { journal, .. } => journal,
        other => panic!("a call that is accepted: {other:?}"),
    };
    let (room, program) = (workspace(FUEL), program.to_vec());
    let open = Call::Open { workspace: room, program: program.clone(), record, journal: vec![0; 2 * VALUE_BYTES] };
    let convert = Call::Convert(ConvertCall {
        workspace: room,
        fuel: FUEL,
        function: 0,
        program: program.clone(),
        ancillae,
        journal: left(&open),
    });
    let rollback = Call::Rollback { workspace: room, fuel: FUEL, program, journal: left(&convert) };
    [open, convert, rollback]
}

fn run(program: &[u8], direction: Direction, ancillae: &[u8], value: Vec<u8>) -> Call {
    Call::Run(RunCall {
        direction,
        workspace: workspace(FUEL),
        output: VALUE_BYTES,
        fuel: FUEL,
        function: 0,
        program: program.to_vec(),
        ancillae: ancillae.to_vec(),
        value,
    })
}

/// A case whose left branch is 500 constructors deep, so that first match looks as deep into a value.
fn long_left_branch() -> Vec<u8> {
    let left = (0..500).fold(zero(), |term, _| successor(term));
    let function = Function {
        parameters: vec![sum(&unit_type(), &nat())],
        result: nat(),
        body: case(variable(0), left, variable(1)),
    };
    Draft { functions: vec![function] }.bytes()
}
