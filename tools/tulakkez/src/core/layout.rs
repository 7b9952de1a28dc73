//! The program's bytes (document 01, section 1) with the place of each entry in the text.
//!
//! Types and terms stand in the order in which a walk through the functions completes them: a function's result type, its parameters'
//! types, its body, parts before wholes. Each type stands once. So two programs that differ in numbering alone have the same bytes.

use super::program::Program;
use super::term::{Function, Term, TermKind};
use super::types::{Shape, TypeId, Types};
use crate::text::Span;
use std::collections::HashMap;

#[derive(Clone, Copy, PartialEq, Eq, Debug)]
pub enum EntryKind {
    Type,
    Term,
    Function,
}

impl EntryKind {
    pub fn word(self) -> &'static str {
        match self {
            EntryKind::Type => "type",
            EntryKind::Term => "term",
            EntryKind::Function => "function",
        }
    }

    fn tag(self) -> u8 {
        match self {
            EntryKind::Type => 1,
            EntryKind::Term => 2,
            EntryKind::Function => 3,
        }
    }
}

/// An entry's place in the bytes and in the text.
#[derive(Clone, Copy, PartialEq, Eq, Debug)]
pub struct Entry {
    pub kind: EntryKind,
    pub number: usize,
    pub offset: usize,
    pub span: Span,
}

#[derive(Clone, Debug, Default)]
pub struct Layout {
    pub bytes: Vec<u8>,
    pub entries: Vec<Entry>,
}

impl Layout {
    pub fn at_offset(&self, offset: usize) -> Option<Entry> {
        self.entries.iter().find(|entry| entry.offset == offset).copied()
    }

    pub fn term(&self, number: usize) -> Option<Entry> {
        self.entries.iter().find(|entry| entry.kind == EntryKind::Term && entry.number == number).copied()
    }

    /// The entry that holds a byte.
    pub fn holding(&self, byte: usize) -> Option<Entry> {
        self.entries.iter().rev().find(|entry| entry.offset <= byte).copied()
    }
}

pub fn lay_out(program: &mut Program) -> Layout {
    let mut writer = Writer::new(&mut program.types);
    for function in &program.functions {
        writer.function(function);
    }
    writer.done()
}

type Body = (Vec<u8>, Span);

struct Writer<'a> {
    types: &'a mut Types,
    known: HashMap<TypeId, u16>,
    /// Bodies of the entries, by their tags' order.
    bodies: [Vec<Body>; 3],
}

impl<'a> Writer<'a> {
    fn new(types: &'a mut Types) -> Writer<'a> {
        Writer { types, known: HashMap::new(), bodies: Default::default() }
    }

    fn function(&mut self, function: &Function) {
        let mut body = self.ty(function.result, function.span).to_be_bytes().to_vec();
        body.push(u8::try_from(function.parameters.len()).unwrap_or(u8::MAX));
        for parameter in &function.parameters {
            body.extend(self.ty(parameter.ty, function.span).to_be_bytes());
        }
        body.extend(self.term(&function.body).to_be_bytes());
        self.push(EntryKind::Function, body, function.span);
    }

    fn term(&mut self, term: &Term) -> u16 {
        let parts: Vec<u16> = term.parts().into_iter().map(|part| self.term(part)).collect();
        let (kind, first) = match &term.kind {
            TermKind::Variable(number) => {
                let number = u8::try_from(*number).unwrap_or(u8::MAX);
                return self.push(EntryKind::Term, vec![0, number], term.span);
            }
            TermKind::Unit => (1, None),
            TermKind::Inl(ty, _) => (2, Some(self.ty(*ty, term.span))),
            TermKind::Inr(ty, _) => (3, Some(self.ty(*ty, term.span))),
            TermKind::Pair(..) => (4, None),
            TermKind::Let(..) => (5, None),
            TermKind::LetPair(..) => (6, None),
            TermKind::Case(..) => (7, None),
            TermKind::Call(function, _) => (8, Some(u16::try_from(*function).unwrap_or(u16::MAX))),
            TermKind::Roll(ty, _) => (9, Some(self.ty(*ty, term.span))),
            TermKind::Unroll(ty, _) => (10, Some(self.ty(*ty, term.span))),
        };
        let mut body = vec![kind];
        for reference in first.into_iter().chain(parts) {
            body.extend(reference.to_be_bytes());
        }
        self.push(EntryKind::Term, body, term.span)
    }

    fn ty(&mut self, id: TypeId, span: Span) -> u16 {
        let id = self.types.structural(id);
        if let Some(&number) = self.known.get(&id) {
            return number;
        }
        let body = match self.types.shape(id) {
            Shape::Product(a, b) => self.two(1, a, b, span),
            Shape::Sum(a, b) => self.two(2, a, b, span),
            Shape::Recursive(inner) => {
                let inner = self.ty(inner, span).to_be_bytes();
                vec![3, inner[0], inner[1]]
            }
            Shape::Bound(skipped) => vec![4, u8::try_from(skipped).unwrap_or(u8::MAX)],
            Shape::Unit | Shape::Variant(_) => vec![0],
        };
        let number = self.push(EntryKind::Type, body, span);
        self.known.insert(id, number);
        number
    }

    fn two(&mut self, kind: u8, a: TypeId, b: TypeId, span: Span) -> Vec<u8> {
        let (a, b) = (self.ty(a, span).to_be_bytes(), self.ty(b, span).to_be_bytes());
        vec![kind, a[0], a[1], b[0], b[1]]
    }

    /// A program of more entries than numbers is far over the engine's limits, and refused for them.
    fn push(&mut self, kind: EntryKind, body: Vec<u8>, span: Span) -> u16 {
        let bodies = &mut self.bodies[kind as usize];
        bodies.push((body, span));
        u16::try_from(bodies.len() - 1).unwrap_or(u16::MAX)
    }

    fn done(self) -> Layout {
        let mut layout = Layout::default();
        for (kind, bodies) in [EntryKind::Type, EntryKind::Term, EntryKind::Function].into_iter().zip(self.bodies)
        {
            for (number, (body, span)) in bodies.into_iter().enumerate() {
                layout.entries.push(Entry { kind, number, offset: layout.bytes.len(), span });
                layout.bytes.push(kind.tag());
                layout.bytes.extend(u16::try_from(body.len()).unwrap_or(u16::MAX).to_be_bytes());
                layout.bytes.extend(body);
            }
        }
        layout
    }
}
