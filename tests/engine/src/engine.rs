//! The proved engine, linked as a static library, behind the second evaluator's own calls and answers.

use corefun::foreign::{self, Told};
use second::calls::{Answer, Call, Direction, RunCall};
use second::make::scripts::ScriptCall;
use second::readers::{ReadCall, Reader};
use second::refusal::{Number, Refusal};
use second::rng::Rng;
use second::script::Ended;
use std::sync::atomic::{AtomicUsize, Ordering};
use std::sync::OnceLock;

/// The engine's answer, or what it broke: a byte of the workspace, the output or the journal that is not as section 4 has it.
pub fn answer(call: &Call) -> Result<Answer, String> {
    match call {
        Call::Check { workspace, program } => {
            let (told, refused) = with_workspace(*workspace, |space| foreign::check(program, space))?;
            no_more(told)?;
            Ok(refused.map_or(Answer::Accepted, Answer::Refused))
        }
        Call::Run(call) => ran(call),
        Call::Open { workspace, program, record, journal } => {
            let (told, left) =
                on_journal(*workspace, journal, |space, bytes| foreign::open(program, record, space, bytes))?;
            no_more(told)?;
            Ok(left.map_or_else(Answer::Refused, |journal| Answer::Opened { journal }))
        }
        Call::Convert(call) => held(on_journal(call.workspace, &call.journal, |space, bytes| {
            foreign::convert(&call.program, call.function, &call.ancillae, call.fuel, space, bytes)
        })?),
        Call::Rollback { workspace, fuel, program, journal } => {
            held(on_journal(*workspace, journal, |space, bytes| foreign::rollback(program, *fuel, space, bytes))?)
        }
        Call::Read(call) => read(call),
    }
}

fn ran(call: &RunCall) -> Result<Answer, String> {
    let mut output = pattern(call.output);
    let (told, refused) = with_workspace(call.workspace, |space| run(call, space, &mut output))?;
    let written = written(told, refused, output)?;
    Ok(written.map_or_else(Answer::Refused, |value| Answer::Value { value, steps: told[3] as u32 }))
}

fn read(call: &ReadCall) -> Result<Answer, String> {
    let mut output = pattern(call.output);
    let told = see(call, &mut output);
    match (written(told, refusal(told)?, output)?, call.reader) {
        (Err(refusal), _) => Ok(Answer::Refused(refusal)),
        (Ok(value), Reader::Nurse) => Ok(Answer::Seen { value, standing: told[3] as usize }),
        (Ok(bytes), Reader::Workshop) if told[3] == 0 => Ok(Answer::Entries { bytes }),
        _ => Err(format!("steps are told: {told:?}")),
    }
}

/// What a call has written into an output that began with a pattern, or its refusal. The rest of the output is as it was.
fn written(told: Told, refused: Option<Refusal>, mut output: Vec<u8>) -> Result<Result<Vec<u8>, Refusal>, String> {
    let before = pattern(output.len());
    let length = if refused.is_none() { told[2] as usize } else { 0 };
    if length > output.len() || output[length..] != before[length..] {
        return Err("the rest of the output changed".to_string());
    }
    match refused {
        Some(refusal) => no_more(told).map(|()| Err(refusal)),
        None => {
            output.truncate(length);
            Ok(Ok(output))
        }
    }
}

/// A call on a journal: what it tells, and the bytes that it leaves or its refusal.
fn on_journal(
    room: usize,
    journal: &[u8],
    call: impl FnOnce(&mut [u8], &mut [u8]) -> Told,
) -> Result<(Told, Result<Vec<u8>, Refusal>), String> {
    let mut bytes = journal.to_vec();
    let (told, refused) = with_workspace(room, |space| call(space, &mut bytes))?;
    match refused {
        Some(_) if bytes != journal => Err("the journal changed on a refusal".to_string()),
        Some(refusal) => Ok((told, Err(refusal))),
        None => Ok((told, Ok(bytes))),
    }
}

fn held((told, left): (Told, Result<Vec<u8>, Refusal>)) -> Result<Answer, String> {
    match left {
        Err(refusal) => no_more(told).map(|()| Answer::Refused(refusal)),
        Ok(journal) => Ok(Answer::Held { length: told[2] as usize, steps: told[3] as u32, journal }),
    }
}

/// What playing a script leaves in the buffers, which start with a pattern.
#[derive(PartialEq, Eq)]
pub struct Replayed {
    pub ended: Ended,
    pub workspace: Vec<u8>,
    pub journal: Vec<u8>,
    pub answers: Vec<u8>,
}

pub fn replay(call: &ScriptCall) -> Result<Replayed, String> {
    let mut workspace = pattern(call.workspace);
    let (mut journal, mut answers) = (pattern(call.journal), pattern(call.answers));
    let told = foreign::replay(&call.program, &call.script, &mut workspace, &mut journal, &mut answers);
    Ok(Replayed { ended: ending(told)?, workspace, journal, answers })
}

fn ending([way, at, number, place]: Told) -> Result<Ended, String> {
    let refused = refusal([number, place, 0, 0])?;
    match (way, refused) {
        (0, None) => Ok(Ended::Played(at as usize)),
        (1, None) => Ok(Ended::Malformed(at as usize)),
        (2, None) => Ok(Ended::TooWide(at as usize)),
        (3, None) if at == 0 => Ok(Ended::ShortAnswers),
        (4, Some(refusal)) if at == 0 => Ok(Ended::Unopened(refusal)),
        (5, None) => Ok(Ended::Cut(at as usize)),
        _ => Err(format!("no ending: {:?}", [way, at, number, place])),
    }
}

/// The run of a call, in its direction.
pub fn run(call: &RunCall, workspace: &mut [u8], output: &mut [u8]) -> Told {
    let carry = match call.direction {
        Direction::Forward => foreign::forward,
        Direction::Backward => foreign::backward,
    };
    let RunCall { program, function, ancillae, value, fuel, .. } = call;
    carry(&foreign::Run { program, function: *function, ancillae, value, fuel: *fuel }, workspace, output)
}

/// A reader's call.
pub fn see(call: &ReadCall, output: &mut [u8]) -> Told {
    match call.reader {
        Reader::Nurse => foreign::nurse(&call.journal, output),
        Reader::Workshop => foreign::workshop(&call.journal, output),
    }
}

/// Bytes that no call writes by chance.
pub fn pattern(length: usize) -> Vec<u8> {
    const PERIOD: usize = 223;
    let period: [u8; PERIOD] = std::array::from_fn(|i| (17 + 31 * i % PERIOD) as u8);
    let mut bytes = period.repeat(length / PERIOD + 1);
    bytes.truncate(length);
    bytes
}

/// What a workspace may come with: by turns the pattern, and small numbers of two bytes, which could be the codes, entries and aliases that an
/// earlier check left there (02, F-4).
fn left_behind(length: usize) -> Vec<u8> {
    const NUMBERS: usize = 40_009;
    static CALLS: AtomicUsize = AtomicUsize::new(0);
    static SMALL: OnceLock<Vec<u8>> = OnceLock::new();
    let call = CALLS.fetch_add(1, Ordering::Relaxed);
    if call % 2 == 0 {
        return pattern(length);
    }
    let small = SMALL.get_or_init(|| {
        let mut rng = Rng::new(1);
        let mut low = || {
            let most = *rng.pick(&[4, 16, 64, 256]);
            rng.below(most) as u8
        };
        (0..NUMBERS).flat_map(|_| [0, low()]).collect()
    });
    let from = 2 * (call % NUMBERS);
    let mut bytes = small[from..].to_vec();
    while bytes.len() < length {
        bytes.extend_from_slice(small);
    }
    bytes.truncate(length);
    bytes
}

/// Lends a workspace that starts with such bytes: it is zero after every call, unchanged after refusal 1.
fn with_workspace(room: usize, call: impl FnOnce(&mut [u8]) -> Told) -> Result<(Told, Option<Refusal>), String> {
    let before = left_behind(room);
    let mut workspace = before.clone();
    let told = call(&mut workspace);
    let refused = refusal(told)?;
    let too_short = refused.is_some_and(|refusal| refusal.number == Number::Workspace);
    if too_short && workspace != before {
        return Err("the workspace changed on refusal 1".to_string());
    }
    if !too_short && workspace.iter().fold(0, |all, byte| all | byte) != 0 {
        return Err("the workspace is not all zero".to_string());
    }
    Ok((told, refused))
}

/// A check, an open and a refusal tell neither length nor steps.
fn no_more(told: Told) -> Result<(), String> {
    if told[2] == 0 && told[3] == 0 {
        Ok(())
    } else {
        Err(format!("a length or steps are told: {told:?}"))
    }
}

fn refusal(told: Told) -> Result<Option<Refusal>, String> {
    const NUMBERS: [Number; 20] = [
        Number::Workspace,
        Number::Field,
        Number::Count,
        Number::Reference,
        Number::TypeEntry,
        Number::Mismatch,
        Number::Scope,
        Number::Use,
        Number::NoFunction,
        Number::ValueBytes,
        Number::ValueType,
        Number::Fuel,
        Number::Height,
        Number::Size,
        Number::FirstMatch,
        Number::NoInput,
        Number::Output,
        Number::Journal,
        Number::NothingStanding,
        Number::JournalFull,
    ];
    let place = u32::try_from(told[1]).map_err(|_| format!("no place: {told:?}"))?;
    match told[0] {
        0 if place == 0 => Ok(None),
        number @ 1..=20 => Ok(Some(NUMBERS[number as usize - 1].at(place))),
        _ => Err(format!("no answer: {told:?}")),
    }
}
