//! Lists of open, convert and rollback calls, each with the plain book's answer and what the book has readers told after it.
//!
//! Demand 3's premises hold: one program throughout, each call gets the journal as the last one left it, and a
//! shorter buffer loses only zeros behind the last field. The journal in each call is the one that the book writes.

use super::choose::choosing_program;
use super::corners::shortening_program;
use super::sound_program;
use super::steer::{converters, steered_program};
use super::story::Story;
use crate::book::{Book, Circumstances};
use crate::calls::{Answer, Call};
use crate::readers::Reading;
use crate::rng::Rng;

/// A call of a list, answered by the plain book.
pub struct Turn {
    pub call: Call,
    pub answer: Answer,
    /// Of the journal as it stands after the call.
    pub reading: Reading,
}

impl Turn {
    fn new(book: &mut Book, program: &[u8], call: Call) -> Turn {
        let answer = book_answer(book, &call);
        let reading = book.reading(program).expect("the program of an accepted open");
        Turn { call, answer, reading }
    }

    /// Calls of the readers on the journal after the call. Such calls write no journal, and stand outside the list.
    pub fn readers(&self) -> Vec<(Call, Answer)> {
        let journal = self.call.journal_after(&self.answer).expect("a call on a journal");
        self.reading.calls(journal)
    }
}

pub fn book_list(rng: &mut Rng) -> Vec<Turn> {
    let draft = match rng.below(20) {
        0..=2 => shortening_program(rng),
        3 | 4 => steered_program(rng),
        5 | 6 => converters(),
        7..=9 => choosing_program(rng),
        _ => sound_program(rng),
    };
    let (mut story, open) = Story::begin(rng, draft);
    let Call::Open { record, .. } = &open else { return Vec::new() };
    let mut book = Book::begin(record);
    let mut list = vec![Turn::new(&mut book, &story.program, open)];
    story.turn(&list[0].call, &list[0].answer);
    let calls = if rng.chance(6) { 150 } else { rng.between(1, 30) };
    // A long list leans to conversions first, so that it comes to 64 standing.
    for number in 0..calls {
        let converts = if number < calls / 2 { 85 } else { 40 };
        let call = story.next_call(rng, converts);
        let turn = Turn::new(&mut book, &story.program, call);
        story.turn(&turn.call, &turn.answer);
        list.push(turn);
    }
    list
}

fn book_answer(book: &mut Book, call: &Call) -> Answer {
    match call {
        Call::Open { workspace, program, record, journal } => {
            let given = Circumstances { workspace: *workspace, fuel: 0, program, buffer: journal.len() };
            book.open(&given, record)
        }
        Call::Convert(call) => {
            let given = Circumstances {
                workspace: call.workspace,
                fuel: call.fuel,
                program: &call.program,
                buffer: call.journal.len(),
            };
            book.convert(&given, call.function, &call.ancillae)
        }
        Call::Rollback { workspace, fuel, program, journal } => {
            let given = Circumstances { workspace: *workspace, fuel: *fuel, program, buffer: journal.len() };
            book.rollback(&given)
        }
        Call::Check { .. } | Call::Run(_) | Call::Read(_) => {
            unreachable!("calls that write no journal stand outside the list")
        }
    }
}
