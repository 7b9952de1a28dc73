//! Journals that are malformed, or whose entries do not fit the program.

use super::choices;
use super::runs::ancilla_bytes;
use super::values::{long_value, near_miss, typed_near_miss};
use crate::calls::{answer, Answer, Call, ConvertCall, Direction, RunCall};
use crate::draft::Draft;
use crate::journal::{Conversion, Journal};
use crate::limits::{self, ANCILLA_BYTES, CONVERSIONS, FUEL, VALUE_BYTES};
use crate::rng::Rng;

/// The run as a convert call, or backward as a rollback, on a journal that was never opened: its record is the run's
/// value, and what a rollback strikes is the run. Older entries may be anything.
pub fn as_journal_call(rng: &mut Rng, run: &RunCall) -> Call {
    let older =
        Conversion { function: rng.below(3) as u16, steps: rng.below(9) as u32, ancillae: vec![0; rng.below(3)] };
    let mut journal = Journal { held: run.value.clone(), conversions: vec![older; rng.below(3)] };
    let RunCall { workspace, fuel, function, .. } = *run;
    let (program, ancillae) = (run.program.clone(), run.ancillae.clone());
    let carried = answer(&Call::Run(RunCall {
        workspace: limits::workspace(FUEL),
        output: VALUE_BYTES,
        fuel: FUEL,
        ..run.clone()
    }));
    let (value, steps) = match carried {
        Answer::Value { value, steps } => (value, steps),
        _ => (Vec::new(), rng.below(50) as u32),
    };
    if run.direction == Direction::Forward {
        let entry = Conversion { function, steps, ancillae: ancillae.clone() };
        let after = Journal { held: value, conversions: [&journal.conversions[..], &[entry]].concat() };
        let journal = in_some_buffer(rng, &journal, after.length());
        return Call::Convert(ConvertCall { workspace, fuel, function, program, ancillae, journal });
    }
    let after = Journal { held: value, conversions: journal.conversions.clone() };
    let steps = if rng.chance(85) { steps } else { steps + 1 };
    journal.conversions.push(Conversion { function, steps, ancillae });
    Call::Rollback { workspace, fuel, program, journal: in_some_buffer(rng, &journal, after.length()) }
}

/// In a buffer about as long as the journal needs after the call.
fn in_some_buffer(rng: &mut Rng, journal: &Journal, needed: usize) -> Vec<u8> {
    let length = choices::length(rng, needed);
    written(journal, length)
}

/// The same call on a damaged journal; other calls are handed back.
pub fn with_damaged_journal(rng: &mut Rng, draft: &Draft, call: &Call) -> Call {
    match call.clone() {
        Call::Convert(call) => {
            let journal = damaged_journal(rng, draft, &call.journal);
            Call::Convert(ConvertCall { journal, ..call })
        }
        Call::Rollback { workspace, fuel, program, journal } => {
            let journal = damaged_journal(rng, draft, &journal);
            Call::Rollback { workspace, fuel, program, journal }
        }
        other => other,
    }
}

fn damaged_journal(rng: &mut Rng, draft: &Draft, bytes: &[u8]) -> Vec<u8> {
    match Journal::read(bytes) {
        Some(journal) if rng.chance(30) => retold(rng, draft, journal, bytes.len()),
        Some(journal) if rng.chance(60) => rewritten(rng, journal, bytes.len()),
        _ => damaged_bytes(rng, bytes.to_vec()),
    }
}

/// A record or ancillae that the newest entry's function could have, but did not.
fn retold(rng: &mut Rng, draft: &Draft, mut journal: Journal, length: usize) -> Vec<u8> {
    let functions = &draft.functions;
    if let Some(newest) = journal.conversions.last_mut() {
        if let Some(function) = functions.get(newest.function as usize) {
            match rng.below(5) {
                0 | 1 => {
                    newest.ancillae = ancilla_bytes(rng, &function.parameters[..function.parameters.len() - 1])
                }
                2 => journal.held = long_value(rng, &function.result),
                _ => journal.held = typed_near_miss(rng, &function.result, &journal.held),
            }
        }
    }
    written(&journal, length)
}

/// In the buffer, or in a longer one where it does not fit.
fn written(journal: &Journal, length: usize) -> Vec<u8> {
    journal.write(length.max(journal.length())).unwrap_or_default()
}

/// Entries added, left out or changed, then written out again.
fn rewritten(rng: &mut Rng, mut journal: Journal, length: usize) -> Vec<u8> {
    let copy = journal.conversions.last().cloned();
    match (rng.below(11), journal.conversions.last_mut()) {
        (0, Some(newest)) => newest.steps = newest.steps.wrapping_add(*rng.pick(&[1, u32::MAX, 0x0001_0000])),
        (1, Some(newest)) => newest.function = rng.below(4) as u16,
        (2, Some(newest)) => newest.function = *rng.pick(&[63, 64, 0x0100, 0xffff]),
        (3, Some(newest)) => newest.ancillae.push(0),
        (4, Some(newest)) => newest.ancillae.clear(),
        (5, _) => {
            let filler = copy.unwrap_or(Conversion { function: 0, steps: 1, ancillae: Vec::new() });
            let standing = CONVERSIONS + rng.below(3) - 1;
            journal.conversions.resize(standing.max(journal.conversions.len()), filler);
        }
        (6, _) => journal.held = vec![4; VALUE_BYTES - 2 + rng.below(4)].into_iter().chain([0]).collect(),
        (7, _) => {
            let ancillae = vec![0; ANCILLA_BYTES - 1 + rng.below(4)];
            journal.conversions.push(Conversion { function: rng.below(2) as u16, steps: 3, ancillae });
        }
        (8, _) => journal.held = [&[1], &journal.held[..]].concat(),
        _ => journal.held = near_miss(rng, &journal.held),
    }
    written(&journal, length)
}

/// Bytes changed, cut, added or left out, wherever they fall.
pub fn damaged_bytes(rng: &mut Rng, mut bytes: Vec<u8>) -> Vec<u8> {
    let fields = Journal::read(&bytes).map_or(bytes.len(), |journal| journal.length());
    let at = rng.below(fields);
    match rng.below(12) {
        0 => bytes.clear(),
        1 => bytes.fill(0),
        2 => bytes.truncate(at),
        3 | 4 if !bytes.is_empty() => bytes[at] ^= 1 << rng.below(8),
        5 if !bytes.is_empty() => bytes[at] = rng.below(6) as u8,
        6 => bytes.insert(at, rng.byte()),
        7 if !bytes.is_empty() => drop(bytes.remove(at)),
        8 => {
            bytes.truncate(fields);
            bytes.extend([0, 0, rng.byte()]);
        }
        9 => {
            bytes.truncate(fields);
            bytes.extend([0x22, 0, rng.below(8) as u8, 0, 0, 0, 0, 0, 1]);
        }
        10 => {
            bytes.truncate(fields);
            bytes.extend([*rng.pick(&[0x21, 0x22, 0x23]), 0, 1, 0]);
        }
        _ => {
            bytes.truncate(fields);
            bytes.extend([0x22, 0, 7, 0, 0, 0, 0, 0, 3, *rng.pick(&[0, 1, 3, 5])]);
        }
    }
    bytes
}
