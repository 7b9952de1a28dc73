//! The two readers of a journal (document 02, F-1). Neither has a program or a workspace: the nurse's is told the held value and how
//! many conversions stand, the workshop's the field of every entry.

use crate::calls::{Answer, Call};
use crate::journal::Journal;
use crate::refusal::{Number, Refusal};

#[derive(Clone, Copy, PartialEq, Eq, Debug)]
pub enum Reader {
    Nurse,
    Workshop,
}

impl Reader {
    pub const BOTH: [Reader; 2] = [Reader::Nurse, Reader::Workshop];

    /// The word that its calls begin with.
    pub fn name(self) -> &'static str {
        match self {
            Reader::Nurse => "nurse",
            Reader::Workshop => "workshop",
        }
    }
}

#[derive(Clone, PartialEq, Eq, Debug)]
pub struct ReadCall {
    pub reader: Reader,
    /// Length of the output.
    pub output: usize,
    pub journal: Vec<u8>,
}

/// What readers are told of a journal, by whoever knows it: its bytes, or the plain book.
#[derive(Clone, PartialEq, Eq, Debug)]
pub struct Reading {
    pub held: Vec<u8>,
    pub standing: usize,
    /// The fields of the entries, oldest first.
    pub entries: Vec<u8>,
}

/// 18, then 17.
pub fn read(call: &ReadCall) -> Result<Answer, Refusal> {
    let reading = Reading::of(&call.journal).ok_or(Number::Journal.plain())?;
    reading.told(call.reader, call.output)
}

impl Reading {
    /// None if the journal's bytes do not have the form.
    pub fn of(journal: &[u8]) -> Option<Reading> {
        let journal = Journal::read(journal)?;
        Some(Reading { standing: journal.conversions.len(), entries: journal.entries(), held: journal.held })
    }

    /// What a reader is told into an output of so many bytes.
    fn told(&self, reader: Reader, output: usize) -> Result<Answer, Refusal> {
        if self.length(reader) > output {
            return Err(Number::Output.plain());
        }
        Ok(match reader {
            Reader::Nurse => Answer::Seen { value: self.held.clone(), standing: self.standing },
            Reader::Workshop => Answer::Entries { bytes: self.entries.clone() },
        })
    }

    /// Bytes that a reader writes.
    pub fn length(&self, reader: Reader) -> usize {
        match reader {
            Reader::Nurse => self.held.len(),
            Reader::Workshop => self.entries.len(),
        }
    }

    /// Calls of both readers on a journal that says this, with their answers: outputs just long enough, longer, and a byte too short.
    pub fn calls(&self, journal: &[u8]) -> Vec<(Call, Answer)> {
        const LONGER: usize = 5;
        let mut calls = Vec::new();
        for reader in Reader::BOTH {
            let length = self.length(reader);
            let outputs = [Some(length), Some(length + LONGER), length.checked_sub(1)];
            for output in outputs.into_iter().flatten() {
                let call = ReadCall { reader, output, journal: journal.to_vec() };
                let answer = self.told(reader, output).unwrap_or_else(Answer::Refused);
                calls.push((Call::Read(call), answer));
            }
        }
        calls
    }
}
