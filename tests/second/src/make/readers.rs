//! Calls of the two readers of a journal (document 02, F-1).

use super::choices;
use super::forms::{any_journal, in_buffer, with_other_entries, DAMAGES};
use super::journals::damaged_bytes;
use crate::calls::Call;
use crate::journal::Journal;
use crate::readers::{ReadCall, Reader, Reading};
use crate::rng::Rng;

/// An output that is ample for all but the longest journals.
const AMPLE: usize = 9_999;

/// A few calls on one journal, or on two that tell the nurse the same; `met` is a journal that other calls were about.
pub fn reader_calls(rng: &mut Rng, met: &[u8]) -> Vec<Call> {
    let journal = any_journal(rng);
    match rng.below(20) {
        0..=6 => {
            let bytes = in_buffer(rng, &journal);
            by_both(rng, &bytes)
        }
        7 | 8 => alike_to_the_nurse(rng, &journal),
        9..=14 => {
            let (_, damage) = rng.pick(&DAMAGES);
            let bytes = damage(rng, journal);
            by_both(rng, &bytes)
        }
        15 | 16 => {
            let bytes = in_buffer(rng, &journal);
            let bytes = damaged_bytes(rng, bytes);
            by_both(rng, &bytes)
        }
        _ => by_both(rng, met),
    }
}

fn by_both(rng: &mut Rng, journal: &[u8]) -> Vec<Call> {
    Reader::BOTH.map(|reader| call(rng, reader, journal)).to_vec()
}

/// Outputs at, just below and above what the reader writes. Where the journal is malformed, 18 stands also in an output of no bytes.
fn call(rng: &mut Rng, reader: Reader, journal: &[u8]) -> Call {
    let needed = Reading::of(journal).map(|reading| reading.length(reader));
    let output = match (needed, rng.below(10)) {
        (_, 0) => 0,
        (_, 1) => AMPLE,
        (None, _) => *rng.pick(&[0, 1, 40, AMPLE]),
        (Some(needed), 2) => needed.saturating_sub(1),
        (Some(needed), _) => choices::length(rng, needed),
    };
    Call::Read(ReadCall { reader, output, journal: journal.to_vec() })
}

/// The nurse's reader on two journals that differ in their entries, into outputs of one length.
fn alike_to_the_nurse(rng: &mut Rng, journal: &Journal) -> Vec<Call> {
    let output = choices::length(rng, journal.held.len());
    let other = with_other_entries(rng, journal);
    let read = |journal: &Journal| {
        let journal = in_buffer(rng, journal);
        Call::Read(ReadCall { reader: Reader::Nurse, output, journal })
    };
    [journal, &other].map(read).to_vec()
}
