//! A journal's story: one program, and open, convert and rollback calls on a buffer that grows and shrinks.

use super::choices;
use super::runs::{ancilla_bytes, argument};
use super::values::{long_value, malformed, near_miss, typical_value};
use crate::calls::{answer, Answer, Call, ConvertCall};
use crate::draft::Draft;
use crate::journal::Journal;
use crate::limits::{self, FUEL};
use crate::rng::Rng;

pub struct Story {
    pub draft: Draft,
    pub program: Vec<u8>,
    /// The bytes as the last call left them.
    pub journal: Vec<u8>,
    /// The one function of a story with many conversions.
    favourite: Option<usize>,
}

impl Story {
    /// Starts with an open that is accepted, which is handed back as well.
    pub fn begin(rng: &mut Rng, draft: Draft) -> (Story, Call) {
        let program = draft.shuffled(rng);
        let mut story = Story { draft, program, journal: Vec::new(), favourite: None };
        if rng.chance(50) {
            story.favourite = story.repeatable(rng);
        }
        let record = story.record(rng);
        let buffer = 3 + record.len() + rng.below(300);
        let open = Call::Open {
            workspace: limits::workspace(0),
            program: story.program.clone(),
            record,
            journal: vec![rng.byte(); buffer],
        };
        story.turn(&open, &answer(&open));
        (story, open)
    }

    /// A function that takes its own result again.
    fn repeatable(&self, rng: &mut Rng) -> Option<usize> {
        let functions = &self.draft.functions;
        let repeatable: Vec<usize> = (0..functions.len())
            .filter(|&f| functions[f].parameters.last() == Some(&functions[f].result))
            .collect();
        repeatable.get(rng.below(repeatable.len())).copied()
    }

    fn record(&self, rng: &mut Rng) -> Vec<u8> {
        let number = self.favourite.unwrap_or_else(|| rng.below(self.draft.functions.len()));
        let ty = self.draft.functions[number].parameters.last().expect("a function has a parameter");
        match rng.below(8) {
            0 => argument(rng, ty),
            1 => long_value(rng, ty),
            _ => typical_value(rng, ty),
        }
    }

    /// Takes over what a call left; the buffer keeps its new length even where the call was refused.
    pub fn turn(&mut self, call: &Call, answer: &Answer) {
        if let Some(journal) = call.journal_after(answer) {
            self.journal = journal.to_vec();
        }
    }

    /// Length of the fields, without the zeros behind them.
    fn fields(&self) -> usize {
        fields_length(&self.journal)
    }

    /// The next call, with a buffer that loses no more than zeros.
    pub fn next_call(&self, rng: &mut Rng, converts: usize) -> Call {
        let nothing_stands = Journal::read(&self.journal).is_none_or(|journal| journal.conversions.is_empty());
        let rollbacks = if nothing_stands { 8 } else { 94 - converts };
        match rng.below(100) {
            0..=5 => self.open(rng),
            roll if roll < 6 + rollbacks => self.rollback(rng),
            _ => match self.convert(rng) {
                (call, true) => call,
                (call, false) if rng.chance(40) => call,
                _ if nothing_stands => self.open(rng),
                _ => self.rollback(rng),
            },
        }
    }

    /// How many bytes more than now the fields take after a call.
    fn more_bytes(&self, answer: &Answer) -> usize {
        match answer {
            Answer::Held { journal, .. } => fields_length(journal).saturating_sub(self.fields()),
            _ => 0,
        }
    }

    /// The journal in a buffer with room for some more bytes, at least `fields` long.
    fn buffer(&self, rng: &mut Rng, more: usize) -> Vec<u8> {
        let fields = self.fields();
        let length = choices::length(rng, fields + more).max(fields);
        let mut journal = self.journal.clone();
        journal.resize(length, 0);
        journal
    }

    fn open(&self, rng: &mut Rng) -> Call {
        let record = self.record(rng);
        let record = if rng.chance(15) { malformed(rng, &record) } else { record };
        let short = choices::length(rng, 3 + record.len());
        // Room for the journal that still stands, in case this open is refused.
        let mut journal = self.journal.clone();
        journal.resize(short.max(self.fields()), 0);
        Call::Open { workspace: choices::workspace(rng, 0), program: self.program.clone(), record, journal }
    }

    /// A conversion, and whether some function takes the record.
    fn convert(&self, rng: &mut Rng) -> (Call, bool) {
        let functions = self.draft.functions.len();
        let start = self.favourite.unwrap_or_else(|| rng.below(functions));
        let taken = |call: &ConvertCall| matches!(answer(&Call::Convert(call.clone())), Answer::Held { .. });
        let mut call = self.convert_by(rng, start);
        for number in (start + 1..start + functions).map(|number| number % functions) {
            if taken(&call) || rng.chance(5) {
                break;
            }
            call = self.convert_by(rng, number);
        }
        let possible = taken(&call);
        self.distort(rng, &mut call);
        let ask = |fuel: u16| answer(&Call::Convert(ConvertCall { fuel, ..call.clone() }));
        call.fuel = choices::fuel(rng, ask);
        call.workspace = choices::workspace(rng, call.fuel);
        let more = self.more_bytes(&answer(&Call::Convert(call.clone())));
        call.journal = self.buffer(rng, more);
        (Call::Convert(call), possible)
    }

    fn convert_by(&self, rng: &mut Rng, number: usize) -> ConvertCall {
        let (_, ancillae) =
            self.draft.functions[number].parameters.split_last().expect("a function has a parameter");
        let mut journal = self.journal.clone();
        journal.resize(self.fields() + 4096, 0);
        ConvertCall {
            workspace: limits::workspace(FUEL),
            fuel: FUEL,
            function: number as u16,
            program: self.program.clone(),
            ancillae: ancilla_bytes(rng, ancillae),
            journal,
        }
    }

    fn distort(&self, rng: &mut Rng, call: &mut ConvertCall) {
        match rng.below(40) {
            0 => call.function = *rng.pick(&[self.draft.functions.len() as u16, 64, 0xffff]),
            1 => call.ancillae = malformed(rng, &call.ancillae),
            2 => call.ancillae.push(0),
            3 => call.ancillae = near_miss(rng, &call.ancillae),
            4 => call.function = rng.below(self.draft.functions.len()) as u16,
            _ => {}
        }
    }

    fn rollback(&self, rng: &mut Rng) -> Call {
        let mut journal = self.journal.clone();
        journal.resize(self.fields() + 4096, 0);
        let with = |fuel: u16, workspace: usize, journal: Vec<u8>| Call::Rollback {
            workspace,
            fuel,
            program: self.program.clone(),
            journal,
        };
        let ask = |fuel: u16| answer(&with(fuel, limits::workspace(fuel), journal.clone()));
        let fuel = choices::fuel(rng, ask);
        let more = self.more_bytes(&ask(fuel));
        with(fuel, choices::workspace(rng, fuel), self.buffer(rng, more))
    }
}

fn fields_length(journal: &[u8]) -> usize {
    Journal::read(journal).map_or(0, |journal| journal.length())
}
