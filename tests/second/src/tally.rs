//! How often each answer is met, by call and by the kind of field or term at its place.

use crate::calls::{Answer, Call, Direction};
use crate::refusal::{Number, Refusal};
use std::collections::BTreeMap;

#[derive(Default)]
pub struct Tally {
    counts: BTreeMap<(u8, &'static str, String), usize>,
}

impl Tally {
    pub fn add(&mut self, call: &Call, answer: &Answer) {
        let (number, place) = match answer {
            Answer::Refused(refusal) => {
                (refusal.number as u8, place_kind(call.program().unwrap_or(&[]), *refusal))
            }
            _ => (0, String::new()),
        };
        *self.counts.entry((number, call_name(call), place)).or_default() += 1;
    }

    /// How often a call met a number, 0 for accepted ones.
    pub fn count(&self, number: u8, call: &str) -> usize {
        self.places(number, call).map(|(_, count)| count).sum()
    }

    /// The kinds of place at which a call met a number.
    pub fn places<'a>(&'a self, number: u8, call: &'a str) -> impl Iterator<Item = (&'a str, usize)> + 'a {
        let meant = move |(n, c, _): &(u8, &'static str, String)| *n == number && *c == call;
        self.counts.iter().filter(move |(key, _)| meant(key)).map(|((_, _, place), &count)| (&place[..], count))
    }

    pub fn lines(&self) -> Vec<String> {
        let mut lines = Vec::new();
        for number in 0..=Number::JournalFull as u8 {
            for call in CALLS {
                let count = self.count(number, call);
                if count > 0 {
                    let name = if number == 0 { "accepted".to_string() } else { format!("refused {number}") };
                    let places: Vec<String> = self
                        .places(number, call)
                        .filter(|(place, _)| !place.is_empty())
                        .map(|(place, count)| format!("{place} {count}"))
                        .collect();
                    lines.push(format!("{name:<11} {call:<9} {count:>6}  {}", places.join(", ")));
                }
            }
        }
        lines
    }
}

pub const CALLS: [&str; 8] = ["check", "forward", "backward", "open", "convert", "rollback", "nurse", "workshop"];

fn call_name(call: &Call) -> &'static str {
    match call {
        Call::Check { .. } => "check",
        Call::Run(call) if call.direction == Direction::Forward => "forward",
        Call::Run(_) => "backward",
        Call::Open { .. } => "open",
        Call::Convert(_) => "convert",
        Call::Rollback { .. } => "rollback",
        Call::Read(call) => call.reader.name(),
    }
}

fn place_kind(program: &[u8], refusal: Refusal) -> String {
    let at = refusal.place as usize;
    match refusal.number as u8 {
        2..=8 => field_kind(program.get(at..).unwrap_or(&[])),
        12..=16 => term_at(program, at).map_or("none".to_string(), field_kind),
        _ => String::new(),
    }
}

fn field_kind(field: &[u8]) -> String {
    const TYPES: [&str; 5] = ["unit type", "product", "sum", "recursive", "bound"];
    const TERMS: [&str; 11] =
        ["variable", "unit", "inl", "inr", "pair", "let", "let pair", "case", "call", "roll", "unroll"];
    let kind = field.get(3).map_or(usize::MAX, |&kind| kind as usize);
    let name = match field.first() {
        Some(1) => TYPES.get(kind).copied().unwrap_or("type of no kind"),
        Some(2) => TERMS.get(kind).copied().unwrap_or("term of no kind"),
        Some(3) => "function",
        Some(_) => "no tag",
        None => "no field",
    };
    name.to_string()
}

/// The field of a term entry in a program that was read whole.
fn term_at(program: &[u8], entry: usize) -> Option<&[u8]> {
    let mut terms = 0;
    let mut rest = program;
    while let &[tag, high, low, ..] = rest {
        if tag == 2 {
            if terms == entry {
                return Some(rest);
            }
            terms += 1;
        }
        rest = rest.get(3 + u16::from_be_bytes([high, low]) as usize..)?;
    }
    None
}
