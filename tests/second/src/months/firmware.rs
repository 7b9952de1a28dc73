//! The program of a simulated machine: its two forms of a stroke record, and the functions between and within them.
//!
//! The old form is (weeks, strokes) with a stroke as (seconds, volume); the tick form is (strokes, weeks) with a stroke as
//! (volume, eighths of a second). Weeks are a Nat, seconds four bits and a volume three, the top bit first; eighths are the
//! seconds' bits with three zeros behind. The newest stroke stands first, or last where a firmware turned the list round.

use crate::draft::*;
use crate::samples::{cons, list_bytes, nat_bytes, nil, plus, reverse, snoc};

pub const PLUS: u16 = 0;
pub const LATER: [u16; 2] = [1, 2];
pub const STROKE: [u16; 2] = [3, 4];
const TICK: u16 = 5;
const TICKS: u16 = 6;
pub const TO_TICKS: u16 = 7;
const SNOC: u16 = 8;
const REVERSE: u16 = 9;
pub const TURN_ROUND: u16 = 10;

const SECONDS_BITS: usize = 4;
const VOLUME_BITS: usize = 3;
/// A second has eight ticks.
const TICK_BITS: usize = 3;

#[derive(Clone, Copy, PartialEq, Eq, Debug)]
pub enum Form {
    Old,
    Tick,
}

#[derive(Clone, Copy, PartialEq, Eq, Debug)]
pub struct Stroke {
    pub seconds: u8,
    pub volume: u8,
}

#[derive(Clone, PartialEq, Eq, Debug)]
pub struct Record {
    pub form: Form,
    pub weeks: usize,
    pub strokes: Vec<Stroke>,
}

impl Stroke {
    pub fn bytes(self, form: Form) -> Vec<u8> {
        let volume = bit_bytes(self.volume as usize, VOLUME_BITS);
        let (first, second) = match form {
            Form::Old => (bit_bytes(self.seconds as usize, SECONDS_BITS), volume),
            Form::Tick => (volume, bit_bytes((self.seconds as usize) << TICK_BITS, SECONDS_BITS + TICK_BITS)),
        };
        [&[3], &first[..], &second].concat()
    }
}

impl Record {
    pub fn bytes(&self) -> Vec<u8> {
        let strokes: Vec<Vec<u8>> = self.strokes.iter().map(|stroke| stroke.bytes(self.form)).collect();
        let (weeks, strokes) = (nat_bytes(self.weeks), list_bytes(&strokes));
        match self.form {
            Form::Old => [&[3], &weeks[..], &strokes].concat(),
            Form::Tick => [&[3], &strokes[..], &weeks].concat(),
        }
    }
}

/// A number's lowest bits as nested pairs, the top bit first.
fn bit_bytes(number: usize, bits: usize) -> Vec<u8> {
    let mut bytes = Vec::new();
    for place in (0..bits).rev() {
        if place > 0 {
            bytes.push(3);
        }
        bytes.extend([1 + (number >> place & 1) as u8, 0]);
    }
    bytes
}

fn bits(count: usize) -> Type {
    (1..count).fold(boolean(), |rest, _| product(&boolean(), &rest))
}

fn stroke_type(form: Form) -> Type {
    match form {
        Form::Old => product(&bits(SECONDS_BITS), &bits(VOLUME_BITS)),
        Form::Tick => product(&bits(VOLUME_BITS), &bits(SECONDS_BITS + TICK_BITS)),
    }
}

fn record_type(form: Form) -> Type {
    let strokes = list(&stroke_type(form));
    match form {
        Form::Old => product(&nat(), &strokes),
        Form::Tick => product(&strokes, &nat()),
    }
}

pub fn program() -> Vec<u8> {
    let tick_stroke = stroke_type(Form::Tick);
    let functions = vec![
        plus(PLUS as usize),
        later(Form::Old),
        later(Form::Tick),
        stroke(Form::Old),
        stroke(Form::Tick),
        tick(),
        ticks(),
        to_ticks(),
        snoc(SNOC as usize, &tick_stroke),
        reverse(REVERSE as usize, &tick_stroke, SNOC as usize),
        turn_round(),
    ];
    Draft { functions }.bytes()
}

/// A record of the form by its weeks and strokes.
fn in_form(form: Form, weeks: Term, strokes: Term) -> Term {
    match form {
        Form::Old => pair(weeks, strokes),
        Form::Tick => pair(strokes, weeks),
    }
}

/// With an ancilla, then a record of the form: `body` gets the variables of weeks and strokes.
fn with_ancilla(ancilla: Type, form: Form, body: impl Fn(Term, Term) -> Term) -> Function {
    let (weeks, strokes) = match form {
        Form::Old => (variable(2), variable(3)),
        Form::Tick => (variable(3), variable(2)),
    };
    Function {
        parameters: vec![ancilla, record_type(form)],
        result: record_type(form),
        body: let_pair(variable(1), body(weeks, strokes)),
    }
}

/// So many weeks more.
fn later(form: Form) -> Function {
    let more = |weeks| call(PLUS as usize, vec![variable(0), weeks]);
    with_ancilla(nat(), form, |weeks, strokes| in_form(form, more(weeks), strokes))
}

/// One stroke more.
fn stroke(form: Form) -> Function {
    let ty = stroke_type(form);
    with_ancilla(ty.clone(), form, |weeks, strokes| in_form(form, weeks, cons(&ty, variable(0), strokes)))
}

/// One stroke's seconds become eighths.
fn tick() -> Function {
    let zero = || inl(&boolean(), Term::Unit);
    let zeros = pair(zero(), pair(zero(), zero()));
    let eighths = pair(variable(3), pair(variable(5), pair(variable(7), pair(variable(8), zeros))));
    let by_bits = let_pair(variable(1), let_pair(variable(4), let_pair(variable(6), pair(variable(2), eighths))));
    Function {
        parameters: vec![stroke_type(Form::Old)],
        result: stroke_type(Form::Tick),
        body: let_pair(variable(0), by_bits),
    }
}

/// The same for each stroke of a list.
fn ticks() -> Function {
    let (old, new) = (stroke_type(Form::Old), stroke_type(Form::Tick));
    let full = cons(&new, call(TICK as usize, vec![variable(2)]), call(TICKS as usize, vec![variable(3)]));
    Function {
        parameters: vec![list(&old)],
        result: list(&new),
        body: case(unroll(&list(&old), variable(0)), nil(&new), let_pair(variable(1), full)),
    }
}

fn to_ticks() -> Function {
    let strokes = call(TICKS as usize, vec![variable(2)]);
    Function {
        parameters: vec![record_type(Form::Old)],
        result: record_type(Form::Tick),
        body: let_pair(variable(0), pair(strokes, variable(1))),
    }
}

/// The strokes in the other order.
fn turn_round() -> Function {
    let strokes = call(REVERSE as usize, vec![variable(1)]);
    Function {
        parameters: vec![record_type(Form::Tick)],
        result: record_type(Form::Tick),
        body: let_pair(variable(0), pair(strokes, variable(2))),
    }
}
