//! The program's bytes: field reading (2, 3) into entries of one view each.

use crate::limits::{FUNCTIONS, PARAMETERS, PROGRAM_BYTES, TERMS, TYPES};
use crate::refusal::{Number, Refusal};

/// A type entry, its parts by entry number.
#[derive(Clone, Copy, Debug)]
pub enum TypeEntry {
    Unit,
    Product(u16, u16),
    Sum(u16, u16),
    Recursive(u16),
    Bound(u8),
}

/// A term entry. A call's argument terms stand in `Program::arguments`, the dynamic one last.
#[derive(Clone, Copy, Debug)]
pub enum Term {
    Variable(u8),
    Unit,
    Inl(u16, u16),
    Inr(u16, u16),
    Pair(u16, u16),
    Let(u16, u16),
    LetPair(u16, u16),
    Case(u16, u16, u16),
    Call(u16, Arguments),
    Roll(u16, u16),
    Unroll(u16, u16),
}

#[derive(Clone, Copy, Debug)]
pub struct Arguments {
    first: u16,
    count: u16,
}

#[derive(Debug)]
pub struct Function {
    pub offset: u32,
    pub result: u16,
    pub parameters: Vec<u16>,
    pub body: u16,
}

impl Function {
    /// The last parameter is dynamic, the others are ancillae.
    pub fn ancillae(&self) -> usize {
        self.parameters.len() - 1
    }
}

#[derive(Default, Debug)]
pub struct Program {
    pub types: Vec<TypeEntry>,
    pub type_offsets: Vec<u32>,
    pub terms: Vec<Term>,
    pub term_offsets: Vec<u32>,
    pub arguments: Vec<u16>,
    pub functions: Vec<Function>,
    /// For each term whether it is a case that chooses by an ancilla (02, F-3): none until the check has typed the program.
    pub by_ancilla: Vec<bool>,
}

const TYPE_TAG: u8 = 1;
const TERM_TAG: u8 = 2;
const FUNCTION_TAG: u8 = 3;
const HEADER: usize = 3;

impl Program {
    pub fn read(bytes: &[u8]) -> Result<Program, Refusal> {
        if bytes.len() > PROGRAM_BYTES {
            return Err(Number::Count.plain());
        }
        let mut program = Program::default();
        let mut offset = 0;
        let mut last_tag = TYPE_TAG;
        while offset < bytes.len() {
            let field = &bytes[offset..];
            let (tag, body) = split_field(field, last_tag).ok_or(Number::Field.at(offset as u32))?;
            program.read_entry(tag, body, offset as u32)?;
            last_tag = tag;
            offset += HEADER + body.len();
        }
        Ok(program)
    }

    /// In one field 2 goes before 3, so a count is judged only once the field has its form.
    fn read_entry(&mut self, tag: u8, body: &[u8], offset: u32) -> Result<(), Refusal> {
        let form = Number::Field.at(offset);
        let counts_kept = match tag {
            TYPE_TAG => {
                self.types.push(type_entry(body).ok_or(form)?);
                self.type_offsets.push(offset);
                self.types.len() <= TYPES
            }
            TERM_TAG => {
                let term = self.term_entry(body).ok_or(form)?;
                self.terms.push(term);
                self.term_offsets.push(offset);
                self.terms.len() <= TERMS
            }
            _ => {
                let function = function_entry(body, offset).ok_or(form)?;
                let parameters = function.parameters.len();
                self.functions.push(function);
                self.functions.len() <= FUNCTIONS && (1..=PARAMETERS).contains(&parameters)
            }
        };
        if counts_kept {
            Ok(())
        } else {
            Err(Number::Count.at(offset))
        }
    }

    fn term_entry(&mut self, body: &[u8]) -> Option<Term> {
        let (&kind, rest) = body.split_first()?;
        Some(match (kind, rest) {
            (0, &[variable]) => Term::Variable(variable),
            (1, &[]) => Term::Unit,
            (2, _) => two(rest).map(|(a, b)| Term::Inl(a, b))?,
            (3, _) => two(rest).map(|(a, b)| Term::Inr(a, b))?,
            (4, _) => two(rest).map(|(a, b)| Term::Pair(a, b))?,
            (5, _) => two(rest).map(|(a, b)| Term::Let(a, b))?,
            (6, _) => two(rest).map(|(a, b)| Term::LetPair(a, b))?,
            (7, &[a, b, c, d, e, f]) => Term::Case(number(a, b), number(c, d), number(e, f)),
            (8, _) => self.call_entry(rest)?,
            (9, _) => two(rest).map(|(a, b)| Term::Roll(a, b))?,
            (10, _) => two(rest).map(|(a, b)| Term::Unroll(a, b))?,
            _ => return None,
        })
    }

    /// A call has at least one term, so its references are two or more.
    fn call_entry(&mut self, rest: &[u8]) -> Option<Term> {
        let references = numbers(rest)?;
        let (&function, terms) = references.split_first()?;
        if terms.is_empty() {
            return None;
        }
        let first = self.arguments.len() as u16;
        self.arguments.extend_from_slice(terms);
        Some(Term::Call(function, Arguments { first, count: terms.len() as u16 }))
    }

    pub fn arguments(&self, arguments: Arguments) -> &[u16] {
        &self.arguments[arguments.first as usize..][..arguments.count as usize]
    }

    /// Whether all terms that a term has as its parts, in written order, pass the test.
    pub fn all_parts(&self, term: Term, mut test: impl FnMut(u16) -> bool) -> bool {
        match term {
            Term::Variable(_) | Term::Unit => true,
            Term::Inl(_, a) | Term::Inr(_, a) | Term::Roll(_, a) | Term::Unroll(_, a) => test(a),
            Term::Pair(a, b) | Term::Let(a, b) | Term::LetPair(a, b) => test(a) && test(b),
            Term::Case(a, b, c) => test(a) && test(b) && test(c),
            Term::Call(_, arguments) => self.arguments(arguments).iter().all(|&part| test(part)),
        }
    }
}

impl Term {
    /// The type that the term names itself.
    pub fn named_type(self) -> Option<u16> {
        match self {
            Term::Inl(ty, _) | Term::Inr(ty, _) | Term::Roll(ty, _) | Term::Unroll(ty, _) => Some(ty),
            _ => None,
        }
    }
}

/// Tag and body of the field that starts the bytes; none for a bad tag, order or length.
fn split_field(bytes: &[u8], last_tag: u8) -> Option<(u8, &[u8])> {
    let &[tag, high, low, ref rest @ ..] = bytes else { return None };
    let in_order = (last_tag..=FUNCTION_TAG).contains(&tag);
    let body = rest.get(..number(high, low) as usize)?;
    in_order.then_some((tag, body))
}

fn type_entry(body: &[u8]) -> Option<TypeEntry> {
    Some(match *body {
        [0] => TypeEntry::Unit,
        [1, a, b, c, d] => TypeEntry::Product(number(a, b), number(c, d)),
        [2, a, b, c, d] => TypeEntry::Sum(number(a, b), number(c, d)),
        [3, a, b] => TypeEntry::Recursive(number(a, b)),
        [4, skipped] => TypeEntry::Bound(skipped),
        _ => return None,
    })
}

fn function_entry(body: &[u8], offset: u32) -> Option<Function> {
    let &[high, low, count, ref rest @ ..] = body else { return None };
    let mut references = numbers(rest)?;
    if references.len() != count as usize + 1 {
        return None;
    }
    let body = references.pop()?;
    Some(Function { offset, result: number(high, low), parameters: references, body })
}

fn number(high: u8, low: u8) -> u16 {
    u16::from_be_bytes([high, low])
}

fn numbers(bytes: &[u8]) -> Option<Vec<u16>> {
    let pairs = bytes.chunks_exact(2);
    pairs.remainder().is_empty().then(|| pairs.map(|pair| number(pair[0], pair[1])).collect())
}

fn two(bytes: &[u8]) -> Option<(u16, u16)> {
    match *bytes {
        [a, b, c, d] => Some((number(a, b), number(c, d))),
        _ => None,
    }
}
