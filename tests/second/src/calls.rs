//! The six calls, each in section 4's order, and those of the two readers. Of a workspace and an output only the length matters to the
//! answer.

use crate::journal::{Conversion, Journal};
use crate::limits::{self, ANCILLA_BYTES, CONVERSIONS};
use crate::readers::{self, ReadCall};
use crate::refusal::{Number, Refusal};
pub use crate::run::Direction;
use crate::run::{self, Start};
use crate::typing::{check, Checked};
use crate::value::{one_value, whole_values, Heap, NodeId};

#[derive(Clone, PartialEq, Eq, Debug)]
pub struct RunCall {
    pub direction: Direction,
    pub workspace: usize,
    pub output: usize,
    pub fuel: u16,
    pub function: u16,
    pub program: Vec<u8>,
    pub ancillae: Vec<u8>,
    pub value: Vec<u8>,
}

#[derive(Clone, PartialEq, Eq, Debug)]
pub struct ConvertCall {
    pub workspace: usize,
    pub fuel: u16,
    pub function: u16,
    pub program: Vec<u8>,
    pub ancillae: Vec<u8>,
    pub journal: Vec<u8>,
}

#[derive(Clone, PartialEq, Eq, Debug)]
pub enum Call {
    Check { workspace: usize, program: Vec<u8> },
    Run(RunCall),
    Open { workspace: usize, program: Vec<u8>, record: Vec<u8>, journal: Vec<u8> },
    Convert(ConvertCall),
    Rollback { workspace: usize, fuel: u16, program: Vec<u8>, journal: Vec<u8> },
    Read(ReadCall),
}

impl Call {
    /// None for a reader, which has no program.
    pub fn program(&self) -> Option<&[u8]> {
        match self {
            Call::Check { program, .. } | Call::Open { program, .. } | Call::Rollback { program, .. } => {
                Some(program)
            }
            Call::Run(call) => Some(&call.program),
            Call::Convert(call) => Some(&call.program),
            Call::Read(_) => None,
        }
    }

    /// The journal's buffer before the call, where it has one.
    pub fn journal(&self) -> Option<&[u8]> {
        match self {
            Call::Open { journal, .. } | Call::Rollback { journal, .. } => Some(journal),
            Call::Convert(call) => Some(&call.journal),
            Call::Read(call) => Some(&call.journal),
            Call::Check { .. } | Call::Run(_) => None,
        }
    }

    /// The same after the call: as an accepted one left it, else as it was.
    pub fn journal_after<'a>(&'a self, answer: &'a Answer) -> Option<&'a [u8]> {
        match answer {
            Answer::Opened { journal } | Answer::Held { journal, .. } => Some(journal),
            _ => self.journal(),
        }
    }
}

#[derive(Clone, PartialEq, Eq, Debug)]
pub enum Answer {
    Accepted,
    Value { value: Vec<u8>, steps: u32 },
    Opened { journal: Vec<u8> },
    Held { length: usize, steps: u32, journal: Vec<u8> },
    Seen { value: Vec<u8>, standing: usize },
    Entries { bytes: Vec<u8> },
    Refused(Refusal),
}

pub fn answer(call: &Call) -> Answer {
    let answer = match call {
        Call::Check { workspace, program } => admit(*workspace, 0, program).map(|_| Answer::Accepted),
        Call::Run(call) => run(call),
        Call::Open { workspace, program, record, journal } => open(*workspace, program, record, journal.len()),
        Call::Convert(call) => convert(call),
        Call::Rollback { workspace, fuel, program, journal } => rollback(*workspace, *fuel, program, journal),
        Call::Read(call) => readers::read(call),
    };
    answer.unwrap_or_else(Answer::Refused)
}

/// The workspace row and the rows of the program, which start every call that has a program.
pub fn admit(workspace: usize, fuel: u16, program: &[u8]) -> Result<Checked, Refusal> {
    if workspace < limits::workspace(fuel) {
        return Err(Number::Workspace.plain());
    }
    check(program)
}

fn run(call: &RunCall) -> Result<Answer, Refusal> {
    let mut checked = admit(call.workspace, call.fuel, &call.program)?;
    let (value, steps) =
        carry(&mut checked, call.direction, call.function, call.fuel, &call.ancillae, &call.value)?;
    if value.len() > call.output {
        return Err(Number::Output.plain());
    }
    Ok(Answer::Value { value, steps })
}

/// The answer to a run in which first match holds for every case, as it did before some chose by an ancilla (02, F-3).
pub fn under_first_match(call: &RunCall) -> Answer {
    let carried = admit(call.workspace, call.fuel, &call.program).and_then(|mut checked| {
        checked.program.by_ancilla.fill(false);
        carry(&mut checked, call.direction, call.function, call.fuel, &call.ancillae, &call.value)
    });
    carried.map_or_else(Answer::Refused, |(value, steps)| Answer::Value { value, steps })
}

fn open(workspace: usize, program: &[u8], record: &[u8], length: usize) -> Result<Answer, Refusal> {
    admit(workspace, 0, program)?;
    if !one_value(record) {
        return Err(Number::ValueBytes.plain());
    }
    let journal = Journal { held: record.to_vec(), conversions: Vec::new() };
    let journal = journal.write(length).ok_or(Number::JournalFull.plain())?;
    Ok(Answer::Opened { journal })
}

fn convert(call: &ConvertCall) -> Result<Answer, Refusal> {
    let mut checked = admit(call.workspace, call.fuel, &call.program)?;
    let Journal { held, mut conversions } = Journal::read(&call.journal).ok_or(Number::Journal.plain())?;
    if conversions.len() == CONVERSIONS {
        return Err(Number::JournalFull.plain());
    }
    let (held, steps) = carry(&mut checked, Direction::Forward, call.function, call.fuel, &call.ancillae, &held)?;
    conversions.push(Conversion { function: call.function, steps, ancillae: call.ancillae.clone() });
    leave(Journal { held, conversions }, steps, call.journal.len())
}

fn rollback(workspace: usize, fuel: u16, program: &[u8], journal: &[u8]) -> Result<Answer, Refusal> {
    let mut checked = admit(workspace, fuel, program)?;
    let length = journal.len();
    let Journal { held, mut conversions } = Journal::read(journal).ok_or(Number::Journal.plain())?;
    let newest = conversions.pop().ok_or(Number::NothingStanding.plain())?;
    let (held, steps) = carry(&mut checked, Direction::Backward, newest.function, fuel, &newest.ancillae, &held)?;
    if steps != newest.steps {
        return Err(Number::Journal.plain());
    }
    leave(Journal { held, conversions }, steps, length)
}

/// 'Bytes don't fit' comes last.
fn leave(journal: Journal, steps: u32, length: usize) -> Result<Answer, Refusal> {
    let bytes = journal.write(length).ok_or(Number::JournalFull.plain())?;
    Ok(Answer::Held { length: journal.held.len(), steps, journal: bytes })
}

/// The call row and the run: the bytes of the value that a function carries the given one to, and the steps.
pub fn carry(
    checked: &mut Checked,
    direction: Direction,
    function: u16,
    fuel: u16,
    ancillae: &[u8],
    value: &[u8],
) -> Result<(Vec<u8>, u32), Refusal> {
    let mut heap = Heap::default();
    let (ancillae, value) = arguments(checked, direction, function, ancillae, value, &mut heap)?;
    let start = Start { program: &checked.program, function, ancillae: &ancillae, value };
    let outcome = run::run(&start, direction, fuel, &mut heap)?;
    Ok((heap.store(outcome.value), outcome.steps))
}

/// The call row: 9, then all of 10, then all of 11.
pub fn arguments(
    checked: &mut Checked,
    direction: Direction,
    function: u16,
    ancillae: &[u8],
    value: &[u8],
    heap: &mut Heap,
) -> Result<(Vec<NodeId>, NodeId), Refusal> {
    let signature = checked.signatures.get(function as usize).ok_or(Number::NoFunction.plain())?;
    let bytes = Number::ValueBytes.plain();
    let given = whole_values(ancillae).ok_or(bytes)?;
    let expected = signature.ancillae();
    if ancillae.len() > ANCILLA_BYTES || given.len() != expected.len() || !one_value(value) {
        return Err(bytes);
    }
    let nodes: Vec<NodeId> = given.iter().map(|bytes| heap.load(bytes)).collect();
    let node = heap.load(value);
    let value_type = match direction {
        Direction::Forward => signature.dynamic(),
        Direction::Backward => signature.result,
    };
    let types = &mut checked.types;
    let typed = nodes.iter().zip(expected).all(|(&node, &ty)| heap.has_type(node, ty, types))
        && heap.has_type(node, value_type, types);
    if typed {
        Ok((nodes, node))
    } else {
        Err(Number::ValueType.plain())
    }
}
