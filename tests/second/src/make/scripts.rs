//! Random scripts of journal calls, some of them damaged or given too little room.

use super::lists::book_list;
use crate::calls::Call;
use crate::limits::{self, FUEL};
use crate::rng::Rng;
use crate::script::{Act, Step, LINE};

/// What `script::replay` is given; of the buffers the lengths.
#[derive(Clone, Debug)]
pub struct ScriptCall {
    pub program: Vec<u8>,
    pub script: Vec<u8>,
    pub workspace: usize,
    pub journal: usize,
    pub answers: usize,
}

pub fn script_call(rng: &mut Rng) -> ScriptCall {
    let calls: Vec<Call> = book_list(rng).into_iter().map(|turn| turn.call).collect();
    let program = match &calls[0] {
        Call::Open { program, .. } => program.clone(),
        other => unreachable!("a list begins with an open: {other:?}"),
    };
    let steps: Vec<Step> = calls.into_iter().map(step).collect();
    let mut script = Vec::new();
    steps.iter().for_each(|step| step.write(&mut script));
    let widest = steps.iter().map(|step| step.buffer).max().unwrap_or(0);
    let most = if rng.chance(85) { FUEL } else { rng.below(400) as u16 };
    let mut call = ScriptCall {
        program,
        script,
        workspace: limits::workspace(most),
        journal: widest + rng.below(20),
        answers: LINE * steps.len() + rng.below(9),
    };
    if rng.chance(30) {
        spoil(rng, &mut call, &steps);
    }
    call
}

fn step(call: Call) -> Step {
    match call {
        Call::Open { record, journal, .. } => Step { buffer: journal.len(), act: Act::Open { record } },
        Call::Convert(call) => Step {
            buffer: call.journal.len(),
            act: Act::Convert { fuel: call.fuel, function: call.function, ancillae: call.ancillae },
        },
        Call::Rollback { fuel, journal, .. } => Step { buffer: journal.len(), act: Act::Rollback { fuel } },
        Call::Check { .. } | Call::Run(_) | Call::Read(_) => {
            unreachable!("calls that write no journal stand outside the list")
        }
    }
}

fn spoil(rng: &mut Rng, call: &mut ScriptCall, steps: &[Step]) {
    let at = rng.below(call.script.len());
    match rng.below(9) {
        0 => call.script.truncate(at),
        1 => call.script[at] ^= 1 << rng.below(8),
        2 => call.script.push(*rng.pick(&[0, 0x31, 0x32, 0x33, 0x34])),
        3 => call.answers = rng.below(call.answers),
        4 => call.journal = rng.below(call.journal),
        5 => call.workspace = rng.below(call.workspace),
        6 => call.program.truncate(at),
        7 => call.script[0] = *rng.pick(&[0, 0x32, 0x33]),
        _ => call.script = narrowed(rng, steps),
    }
}

/// One call in a buffer that may be too short for the fields.
fn narrowed(rng: &mut Rng, steps: &[Step]) -> Vec<u8> {
    let narrow = rng.below(steps.len());
    let mut script = Vec::new();
    for (number, step) in steps.iter().enumerate() {
        let buffer = if number == narrow { rng.below(step.buffer) } else { step.buffer };
        Step { buffer, ..step.clone() }.write(&mut script);
    }
    script
}
