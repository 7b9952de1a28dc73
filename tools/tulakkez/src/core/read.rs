//! A program's bytes read back into a tree (document 01, section 1). The engine says whether bytes are a program; what it accepts is read
//! here, and what is not is told without a reason.

use super::layout::EntryKind;
use super::program::Program;
use super::term::{Binder, Function, Parameter, Term, TermKind};
use super::types::{Shape, TypeId, Types};
use crate::text::Span;

/// A field: what it is, where it starts, and its body.
#[derive(Clone, Copy, Debug)]
pub struct Field<'a> {
    pub kind: EntryKind,
    pub number: usize,
    pub offset: usize,
    pub body: &'a [u8],
}

const HEADER: usize = 3;

/// The fields of bytes as far as they are fields.
pub fn fields(bytes: &[u8]) -> Vec<Field<'_>> {
    let mut fields: Vec<Field> = Vec::new();
    let mut counts = [0; 3];
    let mut offset = 0;
    while let Some(&[tag, high, low]) = bytes.get(offset..offset + HEADER) {
        let length = usize::from(u16::from_be_bytes([high, low]));
        let Some(body) = bytes.get(offset + HEADER..offset + HEADER + length) else { break };
        let kind = match tag {
            1 => EntryKind::Type,
            2 => EntryKind::Term,
            3 => EntryKind::Function,
            _ => break,
        };
        fields.push(Field { kind, number: counts[kind as usize], offset, body });
        counts[kind as usize] += 1;
        offset += HEADER + length;
    }
    fields
}

/// The program of bytes that the engine accepts.
pub fn read(bytes: &[u8]) -> Option<Program> {
    let fields = fields(bytes);
    let all = |kind| fields.iter().filter(move |field| field.kind == kind).map(|field| field.body);
    let mut types = Types::default();
    let mut ids: Vec<TypeId> = Vec::new();
    for body in all(EntryKind::Type) {
        let id = read_type(body, &ids, &mut types)?;
        ids.push(id);
    }
    let reader = Reader { types: &ids, terms: all(EntryKind::Term).collect() };
    let functions = all(EntryKind::Function).enumerate().map(|(number, body)| reader.function(number, body));
    let functions = functions.collect::<Option<Vec<_>>>()?;
    Some(Program { types, functions })
}

fn read_type(body: &[u8], known: &[TypeId], types: &mut Types) -> Option<TypeId> {
    let part = |high, low| known.get(usize::from(u16::from_be_bytes([high, low]))).copied();
    let shape = match *body {
        [0] => Shape::Unit,
        [1, a, b, c, d] => Shape::Product(part(a, b)?, part(c, d)?),
        [2, a, b, c, d] => Shape::Sum(part(a, b)?, part(c, d)?),
        [3, a, b] => Shape::Recursive(part(a, b)?),
        [4, skipped] => Shape::Bound(usize::from(skipped)),
        _ => return None,
    };
    Some(types.intern(shape))
}

struct Reader<'a> {
    types: &'a [TypeId],
    terms: Vec<&'a [u8]>,
}

impl Reader<'_> {
    fn function(&self, number: usize, body: &[u8]) -> Option<Function> {
        let (result, rest) = self.type_first(body)?;
        let (&count, mut rest) = rest.split_first()?;
        let mut parameters = Vec::new();
        for place in 0..usize::from(count) {
            let (ty, next) = self.type_first(rest)?;
            parameters.push(Parameter { name: variable_name(place), ty });
            rest = next;
        }
        let body = self.term(reference(rest)?, usize::from(count))?;
        Some(Function { name: format!("f{number}"), span: Span::default(), parameters, result, body })
    }

    /// A term under so many variables.
    fn term(&self, entry: usize, variables: usize) -> Option<Term> {
        let (&kind, rest) = self.terms.get(entry)?.split_first()?;
        let part = |place: usize, bound: usize| {
            // Parts stand before wholes, so that this comes to an end whatever the bytes are.
            let part = reference(rest.get(2 * place..)?).filter(|&part| part < entry)?;
            self.term(part, variables + bound).map(Box::new)
        };
        let kind = match kind {
            0 => TermKind::Variable(usize::from(*rest.first()?)),
            1 => TermKind::Unit,
            2 => TermKind::Inl(self.type_first(rest)?.0, part(1, 0)?),
            3 => TermKind::Inr(self.type_first(rest)?.0, part(1, 0)?),
            4 => TermKind::Pair(part(0, 0)?, part(1, 0)?),
            5 => TermKind::Let(part(0, 0)?, part(1, 1)?),
            6 => TermKind::LetPair(part(0, 0)?, part(1, 2)?),
            7 => TermKind::Case(part(0, 0)?, part(1, 1)?, part(2, 1)?),
            8 => {
                let terms = (1..rest.len() / 2).map(|place| part(place, 0).map(|term| *term));
                TermKind::Call(reference(rest)?, terms.collect::<Option<Vec<_>>>()?)
            }
            9 => TermKind::Roll(self.type_first(rest)?.0, part(1, 0)?),
            10 => TermKind::Unroll(self.type_first(rest)?.0, part(1, 0)?),
            _ => return None,
        };
        let bound: &[usize] = match kind {
            TermKind::Let(..) => &[0],
            TermKind::LetPair(..) => &[0, 1],
            TermKind::Case(..) => &[0, 0],
            _ => &[],
        };
        let binder =
            |&offset: &usize| Binder { name: variable_name(variables + offset).into(), span: Span::default() };
        Some(Term::new(Span::default(), kind, None).binding(bound.iter().map(binder).collect()))
    }

    fn type_first<'b>(&self, bytes: &'b [u8]) -> Option<(TypeId, &'b [u8])> {
        Some((*self.types.get(reference(bytes)?)?, bytes.get(2..)?))
    }
}

fn reference(bytes: &[u8]) -> Option<usize> {
    match *bytes {
        [high, low, ..] => Some(usize::from(u16::from_be_bytes([high, low]))),
        _ => None,
    }
}

/// The name of a variable that has none: its number.
pub fn variable_name(number: usize) -> String {
    format!("x{number}")
}
