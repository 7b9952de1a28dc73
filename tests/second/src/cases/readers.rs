//! The two readers on journals with a known point: P13's, each limit exactly and one past it, each damage.

use super::journal_before_and_after;
use crate::calls::Call;
use crate::journal::{Conversion, Journal};
use crate::limits::{ANCILLA_BYTES, CONVERSIONS, VALUE_BYTES};
use crate::make::forms::DAMAGES;
use crate::readers::{ReadCall, Reader, Reading};
use crate::rng::Rng;

pub fn readings(program: &[u8]) -> Vec<Call> {
    let mut calls: Vec<Call> = well_formed(program).iter().flat_map(|journal| outputs(journal)).collect();
    calls.extend(past_the_limits().iter().flat_map(|journal| malformed(journal)));
    let mut rng = Rng::new(1);
    for (_, damage) in DAMAGES {
        let journal = Journal { held: vec![2, 0], conversions: vec![entry(vec![1, 0]); 2] };
        calls.extend(malformed(&damage(&mut rng, journal)));
    }
    calls
}

/// An entry that no program wrote.
fn entry(ancillae: Vec<u8>) -> Conversion {
    Conversion { function: u16::MAX, steps: u32::MAX, ancillae }
}

fn well_formed(program: &[u8]) -> Vec<Vec<u8>> {
    let (opened, converted) = journal_before_and_after(program);
    let longest = [vec![4; VALUE_BYTES - 1], vec![0]].concat();
    let mut journals = vec![opened, converted];
    for (held, conversions) in [
        (longest, vec![entry(Vec::new())]),
        (vec![0], vec![entry(vec![0; ANCILLA_BYTES])]),
        (vec![0], vec![entry(Vec::new()); CONVERSIONS]),
    ] {
        let journal = Journal { held, conversions };
        journals.extend(journal.write(journal.length()));
    }
    journals
}

fn past_the_limits() -> Vec<Vec<u8>> {
    let too_long = [vec![4; VALUE_BYTES], vec![0]].concat();
    [
        (too_long, Vec::new()),
        (vec![0], vec![entry(vec![0; ANCILLA_BYTES + 1])]),
        (vec![0], vec![entry(Vec::new()); CONVERSIONS + 1]),
    ]
    .into_iter()
    .map(|(held, conversions)| Journal { held, conversions })
    .filter_map(|journal| journal.write(journal.length()))
    .collect()
}

/// Both readers, with outputs of no bytes, one byte short, just long enough and ample.
fn outputs(bytes: &[u8]) -> Vec<Call> {
    let reading = Reading::of(bytes).expect("a well-formed journal");
    let mut calls = Vec::new();
    for reader in Reader::BOTH {
        let needed = reading.length(reader);
        let mut outputs = vec![0, needed.saturating_sub(1), needed, needed + 100];
        outputs.dedup();
        calls.extend(outputs.into_iter().map(|output| call(reader, output, bytes)));
    }
    calls
}

/// Both readers; the output is ample, or has no bytes, which would be met after the form.
fn malformed(bytes: &[u8]) -> Vec<Call> {
    Reader::BOTH
        .into_iter()
        .flat_map(|reader| [VALUE_BYTES, 0].map(|output| call(reader, output, bytes)))
        .collect()
}

fn call(reader: Reader, output: usize, journal: &[u8]) -> Call {
    Call::Read(ReadCall { reader, output, journal: journal.to_vec() })
}
