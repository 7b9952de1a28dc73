//! The plain book (section 5): a first record and rows. It is fed the arguments of each call and the length of its
//! workspace and buffer; nothing that an engine stores or answers goes into it.

use crate::calls::{admit, carry, Answer, Direction};
use crate::journal::{Conversion, Journal};
use crate::limits::{CONVERSIONS, FUEL};
use crate::readers::Reading;
use crate::refusal::{Number, Refusal};
use crate::typing::{check, Checked};
use crate::value::one_value;

#[derive(Clone, Debug)]
pub struct Book {
    first_record: Vec<u8>,
    /// The conversions still standing, oldest first.
    rows: Vec<Row>,
}

#[derive(Clone, Debug)]
struct Row {
    function: u16,
    ancillae: Vec<u8>,
}

/// What a call gives the book besides its own arguments.
pub struct Circumstances<'a> {
    pub workspace: usize,
    pub fuel: u16,
    pub program: &'a [u8],
    /// Length of the journal's buffer.
    pub buffer: usize,
}

impl Book {
    /// The book begins with the record of an accepted open and no rows.
    pub fn begin(record: &[u8]) -> Book {
        Book { first_record: record.to_vec(), rows: Vec::new() }
    }

    /// The journal as the book writes it out, with zeros to the end of the buffer; none if it does not fit.
    pub fn write(&self, program: &[u8], buffer: usize) -> Option<Vec<u8>> {
        let mut checked = check(program).ok()?;
        self.written(&mut checked).write(buffer)
    }

    /// What readers are told of that journal: the held record, how many rows there are, and their fields. None if the program is refused.
    pub fn reading(&self, program: &[u8]) -> Option<Reading> {
        let mut checked = check(program).ok()?;
        let journal = self.written(&mut checked);
        Some(Reading { entries: journal.entries(), held: journal.held, standing: self.rows.len() })
    }

    pub fn open(&mut self, given: &Circumstances, record: &[u8]) -> Answer {
        answered(self.opened(given, record))
    }

    pub fn convert(&mut self, given: &Circumstances, function: u16, ancillae: &[u8]) -> Answer {
        answered(self.converted(given, function, ancillae))
    }

    pub fn rollback(&mut self, given: &Circumstances) -> Answer {
        answered(self.rolled_back(given))
    }

    fn opened(&mut self, given: &Circumstances, record: &[u8]) -> Result<Answer, Refusal> {
        let mut checked = admit(given.workspace, 0, given.program)?;
        if !one_value(record) {
            return Err(Number::ValueBytes.plain());
        }
        let book = Book::begin(record);
        let journal = book.written(&mut checked).write(given.buffer).ok_or(Number::JournalFull.plain())?;
        *self = book;
        Ok(Answer::Opened { journal })
    }

    fn converted(&mut self, given: &Circumstances, function: u16, ancillae: &[u8]) -> Result<Answer, Refusal> {
        let mut checked = admit(given.workspace, given.fuel, given.program)?;
        if self.rows.len() == CONVERSIONS {
            return Err(Number::JournalFull.plain());
        }
        let held = self.written(&mut checked).held;
        carry(&mut checked, Direction::Forward, function, given.fuel, ancillae, &held)?;
        let mut book = self.clone();
        book.rows.push(Row { function, ancillae: ancillae.to_vec() });
        let journal = book.written(&mut checked);
        let steps = journal.conversions.last().map_or(0, |newest| newest.steps);
        self.turn_to(book, journal, steps, given.buffer)
    }

    /// The record comes from the first one, run forward through the rows that are left, and the steps are the struck
    /// row's. The backward run is asked only whether section 4 refuses.
    fn rolled_back(&mut self, given: &Circumstances) -> Result<Answer, Refusal> {
        let mut checked = admit(given.workspace, given.fuel, given.program)?;
        let mut book = self.clone();
        let newest = book.rows.pop().ok_or(Number::NothingStanding.plain())?;
        let standing = self.written(&mut checked);
        carry(&mut checked, Direction::Backward, newest.function, given.fuel, &newest.ancillae, &standing.held)?;
        let steps = standing.conversions.last().map_or(0, |newest| newest.steps);
        let journal = book.written(&mut checked);
        self.turn_to(book, journal, steps, given.buffer)
    }

    fn turn_to(&mut self, book: Book, journal: Journal, steps: u32, buffer: usize) -> Result<Answer, Refusal> {
        let length = journal.held.len();
        let journal = journal.write(buffer).ok_or(Number::JournalFull.plain())?;
        *self = book;
        Ok(Answer::Held { length, steps, journal })
    }

    /// The first record run forward through the rows, oldest first, with the steps that the rules count there.
    fn written(&self, checked: &mut Checked) -> Journal {
        let mut journal = Journal { held: self.first_record.clone(), conversions: Vec::new() };
        for Row { function, ancillae } in &self.rows {
            let run = carry(checked, Direction::Forward, *function, FUEL, ancillae, &journal.held);
            let (held, steps) = run.expect("a row was added by an accepted conversion of the same program");
            journal.held = held;
            journal.conversions.push(Conversion { function: *function, steps, ancillae: ancillae.clone() });
        }
        journal
    }
}

fn answered(answer: Result<Answer, Refusal>) -> Answer {
    answer.unwrap_or_else(Answer::Refused)
}
