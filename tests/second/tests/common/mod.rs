//! Calls in short form, for tests that look at one answer each.
#![allow(dead_code)]

pub mod choices;
pub mod namings;

use second::calls::{answer, Answer, Call, ConvertCall, Direction, RunCall};
use second::draft::Term;
use second::limits::{self, FUEL, VALUE_BYTES};
use second::refusal::{Number, Refusal};

pub fn check(program: &[u8]) -> Answer {
    answer(&Call::Check { workspace: limits::workspace(0), program: program.to_vec() })
}

pub struct Runs<'a> {
    pub program: &'a [u8],
    pub fuel: u16,
}

impl<'a> Runs<'a> {
    pub fn of(program: &'a [u8]) -> Runs<'a> {
        Runs { program, fuel: FUEL }
    }

    pub fn with_fuel(program: &'a [u8], fuel: u16) -> Runs<'a> {
        Runs { program, fuel }
    }

    pub fn forward(&self, function: u16, ancillae: &[u8], value: &[u8]) -> Answer {
        self.run(Direction::Forward, function, ancillae, value)
    }

    pub fn backward(&self, function: u16, ancillae: &[u8], value: &[u8]) -> Answer {
        self.run(Direction::Backward, function, ancillae, value)
    }

    fn run(&self, direction: Direction, function: u16, ancillae: &[u8], value: &[u8]) -> Answer {
        answer(&Call::Run(RunCall {
            direction,
            workspace: limits::workspace(self.fuel),
            output: VALUE_BYTES,
            fuel: self.fuel,
            function,
            program: self.program.to_vec(),
            ancillae: ancillae.to_vec(),
            value: value.to_vec(),
        }))
    }

    pub fn open(&self, record: &[u8], buffer: usize) -> Answer {
        answer(&Call::Open {
            workspace: limits::workspace(0),
            program: self.program.to_vec(),
            record: record.to_vec(),
            journal: vec![0xff; buffer],
        })
    }

    pub fn convert(&self, function: u16, ancillae: &[u8], journal: &[u8]) -> Answer {
        answer(&Call::Convert(ConvertCall {
            workspace: limits::workspace(self.fuel),
            fuel: self.fuel,
            function,
            program: self.program.to_vec(),
            ancillae: ancillae.to_vec(),
            journal: journal.to_vec(),
        }))
    }

    pub fn rollback(&self, journal: &[u8]) -> Answer {
        answer(&Call::Rollback {
            workspace: limits::workspace(self.fuel),
            fuel: self.fuel,
            program: self.program.to_vec(),
            journal: journal.to_vec(),
        })
    }
}

pub fn value(value: &[u8], steps: u32) -> Answer {
    Answer::Value { value: value.to_vec(), steps }
}

pub fn held(length: usize, steps: u32, journal: &[u8]) -> Answer {
    Answer::Held { length, steps, journal: journal.to_vec() }
}

pub fn refused(number: Number, place: u32) -> Answer {
    Answer::Refused(Refusal { number, place })
}

/// The journal that an accepted call left.
pub fn journal_of(answer: Answer) -> Vec<u8> {
    match answer {
        Answer::Opened { journal } | Answer::Held { journal, .. } => journal,
        other => panic!("no journal: {other:?}"),
    }
}

/// The entry of a part, given by which part of which part it is: a term's entry stands behind those of its parts.
pub fn entry_of(body: &Term, path: &[usize]) -> u32 {
    let Some((&first, rest)) = path.split_first() else { return body.count() as u32 - 1 };
    let parts = body.parts();
    let before: usize = parts[..first].iter().map(|part| part.count()).sum();
    before as u32 + entry_of(parts[first], rest)
}
