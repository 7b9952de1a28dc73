//! Scripts of journal calls, and playing one: each call gets the front part of one journal's buffer that it names, and its
//! answer is a line of seven bytes. The answers and the journal are the plain book's.
//!
//! ```text
//! 31 BUFFER(4) LENGTH(2) RECORD                        open
//! 32 BUFFER(4) FUEL(2) FUNCTION(2) LENGTH(2) ANCILLAE  convert
//! 33 BUFFER(4) FUEL(2)                                 rollback
//! 41 0(2) 0(4)              opened
//! 42 LENGTH(2) STEPS(4)     held
//! 43 NUMBER(2) PLACE(4)     refused
//! ```

use crate::book::{Book, Circumstances};
use crate::calls::{Answer, Call};
use crate::journal::Journal;
use crate::readers::{ReadCall, Reader, Reading};
use crate::refusal::{Number, Refusal};

const OPEN: u8 = 0x31;
const CONVERT: u8 = 0x32;
const ROLLBACK: u8 = 0x33;

const OPENED: u8 = 0x41;
const HELD: u8 = 0x42;
const REFUSED: u8 = 0x43;

/// Bytes of the line that answers a call.
pub const LINE: usize = 7;

#[derive(Clone, PartialEq, Eq, Debug)]
pub enum Act {
    Open { record: Vec<u8> },
    Convert { fuel: u16, function: u16, ancillae: Vec<u8> },
    Rollback { fuel: u16 },
}

/// A call of a script, in a buffer of so many bytes.
#[derive(Clone, PartialEq, Eq, Debug)]
pub struct Step {
    pub buffer: usize,
    pub act: Act,
}

impl Step {
    pub fn write(&self, script: &mut Vec<u8>) {
        let buffer = (self.buffer as u32).to_be_bytes();
        match &self.act {
            Act::Open { record } => {
                script.push(OPEN);
                script.extend(buffer);
                write_bytes(script, record);
            }
            Act::Convert { fuel, function, ancillae } => {
                script.push(CONVERT);
                script.extend(buffer);
                script.extend(fuel.to_be_bytes());
                script.extend(function.to_be_bytes());
                write_bytes(script, ancillae);
            }
            Act::Rollback { fuel } => {
                script.push(ROLLBACK);
                script.extend(buffer);
                script.extend(fuel.to_be_bytes());
            }
        }
    }

    /// The call that the bytes begin with, and the bytes behind it.
    pub fn read(bytes: &[u8]) -> Option<(Step, &[u8])> {
        let (&[tag, a, b, c, d], rest) = bytes.split_first_chunk::<5>()?;
        let buffer = u32::from_be_bytes([a, b, c, d]) as usize;
        let (act, rest) = match tag {
            OPEN => {
                let (record, rest) = read_bytes(rest)?;
                (Act::Open { record }, rest)
            }
            CONVERT => {
                let (fuel, rest) = read_number(rest)?;
                let (function, rest) = read_number(rest)?;
                let (ancillae, rest) = read_bytes(rest)?;
                (Act::Convert { fuel, function, ancillae }, rest)
            }
            ROLLBACK => {
                let (fuel, rest) = read_number(rest)?;
                (Act::Rollback { fuel }, rest)
            }
            _ => return None,
        };
        Some((Step { buffer, act }, rest))
    }
}

fn write_bytes(script: &mut Vec<u8>, bytes: &[u8]) {
    script.extend((bytes.len() as u16).to_be_bytes());
    script.extend_from_slice(bytes);
}

fn read_number(bytes: &[u8]) -> Option<(u16, &[u8])> {
    let (&number, rest) = bytes.split_first_chunk::<2>()?;
    Some((u16::from_be_bytes(number), rest))
}

fn read_bytes(bytes: &[u8]) -> Option<(Vec<u8>, &[u8])> {
    let (length, rest) = read_number(bytes)?;
    let (bytes, rest) = rest.split_at_checked(length as usize)?;
    Some((bytes.to_vec(), rest))
}

/// The line that answers a call.
pub fn line(answer: &Answer) -> [u8; LINE] {
    let (kind, short, long) = match answer {
        Answer::Opened { .. } => (OPENED, 0, 0),
        Answer::Held { length, steps, .. } => (HELD, *length as u16, *steps),
        Answer::Refused(refusal) => (REFUSED, refusal.number as u16, refusal.place),
        Answer::Accepted | Answer::Value { .. } | Answer::Seen { .. } | Answer::Entries { .. } => {
            unreachable!("no answer of a call that writes a journal")
        }
    };
    let ([a, b], [c, d, e, f]) = (short.to_be_bytes(), long.to_be_bytes());
    [kind, a, b, c, d, e, f]
}

/// The plain book, fed the calls of a script, with the journal as it stands.
#[derive(Clone)]
pub struct Player {
    program: Vec<u8>,
    workspace: usize,
    book: Option<Book>,
    /// The journal's fields, without the zeros behind them.
    pub fields: Vec<u8>,
    /// What the book has readers told of the journal; none before the first open.
    reading: Option<Reading>,
}

impl Player {
    pub fn new(program: Vec<u8>, workspace: usize) -> Player {
        Player { program, workspace, book: None, fields: Vec::new(), reading: None }
    }

    /// The book's answer. The first call is an open, and the book begins with its record if it is accepted.
    pub fn play(&mut self, step: &Step) -> Answer {
        let fuel = match step.act {
            Act::Open { .. } => 0,
            Act::Convert { fuel, .. } | Act::Rollback { fuel } => fuel,
        };
        let given = Circumstances { workspace: self.workspace, fuel, program: &self.program, buffer: step.buffer };
        let answer = match (&step.act, &mut self.book) {
            (Act::Open { record }, Some(book)) => book.open(&given, record),
            (Act::Open { record }, none) => {
                let mut book = Book::begin(record);
                let answer = book.open(&given, record);
                *none = matches!(answer, Answer::Opened { .. }).then_some(book);
                answer
            }
            (Act::Convert { function, ancillae, .. }, Some(book)) => book.convert(&given, *function, ancillae),
            (Act::Rollback { .. }, Some(book)) => book.rollback(&given),
            (_, None) => unreachable!("a script begins with an open that is accepted"),
        };
        if let Answer::Opened { journal } | Answer::Held { journal, .. } = &answer {
            let length = Journal::read(journal).map_or(0, |journal| journal.length());
            self.fields = journal[..length].to_vec();
            self.reading = self.book.as_ref().and_then(|book| book.reading(&self.program));
        }
        answer
    }

    /// The journal in a buffer of so many bytes.
    pub fn journal(&self, buffer: usize) -> Vec<u8> {
        let mut journal = self.fields.clone();
        journal.resize(buffer, 0);
        journal
    }

    /// Calls of both readers on a journal, answered by the book. Before the first open the journal's bytes are none of the book's, and are
    /// taken to be malformed.
    pub fn readers(&self, journal: &[u8]) -> Vec<(Call, Answer)> {
        match &self.reading {
            Some(reading) => reading.calls(journal),
            None => {
                let refused = Answer::Refused(Number::Journal.plain());
                let call = |reader| Call::Read(ReadCall { reader, output: 0, journal: journal.to_vec() });
                Reader::BOTH.map(|reader| (call(reader), refused.clone())).to_vec()
            }
        }
    }

    /// Plays a script; the buffers are changed as far as it is played. The workspace is zero after a call, unchanged after refusal 1.
    pub fn replay(
        &mut self,
        script: &[u8],
        workspace: &mut [u8],
        journal: &mut Vec<u8>,
        answers: &mut [u8],
    ) -> Ended {
        let steps = match read_script(script, journal.len(), answers.len()) {
            Ok(steps) => steps,
            Err(ended) => return ended,
        };
        for (count, (at, step)) in steps.iter().enumerate() {
            if step.buffer < self.fields.len() {
                return Ended::Cut(*at);
            }
            let answer = self.play(step);
            if !matches!(answer, Answer::Refused(refusal) if refusal.number == Number::Workspace) {
                workspace.fill(0);
            }
            match answer {
                Answer::Refused(refusal) if count == 0 => return Ended::Unopened(refusal),
                answer => answers[LINE * count..][..LINE].copy_from_slice(&line(&answer)),
            }
            *journal = self.journal(journal.len());
        }
        Ended::Played(steps.len())
    }
}

/// How the playing of a script ended; places are offsets in the script.
#[derive(Clone, Copy, PartialEq, Eq, Debug)]
pub enum Ended {
    /// All calls, so many.
    Played(usize),
    /// No call stands there, or no open at the start: nothing was played.
    Malformed(usize),
    /// The call's buffer is longer than the journal's: nothing was played.
    TooWide(usize),
    /// No room for the answers: nothing was played.
    ShortAnswers,
    /// The first open was refused.
    Unopened(Refusal),
    /// The call's buffer would cut the journal's fields: the calls before stand played, with their answers.
    Cut(usize),
}

/// The calls with their offsets. A script is read to its end before a call is made: each call stands there whole, and there is room for
/// it and for its answer. Only then is the first call looked at.
fn read_script(script: &[u8], journal: usize, answers: usize) -> Result<Vec<(usize, Step)>, Ended> {
    let mut steps = Vec::new();
    let mut rest = script;
    while !rest.is_empty() {
        let at = script.len() - rest.len();
        let (step, behind) = Step::read(rest).ok_or(Ended::Malformed(at))?;
        if step.buffer > journal {
            return Err(Ended::TooWide(at));
        } else if answers < LINE * (steps.len() + 1) {
            return Err(Ended::ShortAnswers);
        }
        steps.push((at, step));
        rest = behind;
    }
    match steps.first() {
        Some((_, Step { act: Act::Open { .. }, .. })) => Ok(steps),
        _ => Err(Ended::Malformed(0)),
    }
}
