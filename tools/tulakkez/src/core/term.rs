//! Core terms as trees, with their places in the text, and what typing would say of them as far as it is known. The engine decides; the
//! types kept here only put constructors in and explain a refusal.

use super::types::TypeId;
use crate::text::Span;
use std::rc::Rc;

/// A variable as the text names it, for messages.
#[derive(Clone, Debug)]
pub struct Binder {
    pub name: Rc<str>,
    pub span: Span,
}

#[derive(Clone, Debug)]
pub struct Term {
    pub span: Span,
    pub kind: TermKind,
    pub ty: Option<TypeId>,
    /// The variables that the term binds: one for let, two for let pair, one for each branch of a case.
    pub binders: Vec<Binder>,
}

#[derive(Clone, Debug)]
pub enum TermKind {
    /// How many variables were in scope where it was bound.
    Variable(usize),
    Unit,
    Inl(TypeId, Box<Term>),
    Inr(TypeId, Box<Term>),
    Pair(Box<Term>, Box<Term>),
    Let(Box<Term>, Box<Term>),
    LetPair(Box<Term>, Box<Term>),
    Case(Box<Term>, Box<Term>, Box<Term>),
    Call(usize, Vec<Term>),
    Roll(TypeId, Box<Term>),
    Unroll(TypeId, Box<Term>),
}

#[derive(Clone, Debug)]
pub struct Parameter {
    pub name: String,
    pub ty: TypeId,
}

#[derive(Clone, Debug)]
pub struct Function {
    pub name: String,
    pub span: Span,
    pub parameters: Vec<Parameter>,
    pub result: TypeId,
    pub body: Term,
}

impl Term {
    pub fn new(span: Span, kind: TermKind, ty: Option<TypeId>) -> Term {
        Term { span, kind, ty, binders: Vec::new() }
    }

    pub fn binding(mut self, binders: Vec<Binder>) -> Term {
        self.binders = binders;
        self
    }

    /// How many variables the term binds for the part at this place.
    pub fn bound_before(&self, place: usize) -> usize {
        match (&self.kind, place) {
            (TermKind::Let(..), 1) | (TermKind::Case(..), 1 | 2) => 1,
            (TermKind::LetPair(..), 1) => 2,
            _ => 0,
        }
    }

    /// Is the part at this place an ancilla argument?
    pub fn is_ancilla(&self, place: usize) -> bool {
        matches!(&self.kind, TermKind::Call(_, terms) if place + 1 < terms.len())
    }

    /// Where the term first uses a variable from outside. An ancilla argument only names it, and leaves it (document 02, F-2).
    pub fn use_of(&self, variable: usize) -> Option<&Term> {
        if matches!(self.kind, TermKind::Variable(number) if number == variable) {
            return Some(self);
        }
        let mut used_up = self.parts().into_iter().enumerate().filter(|(place, _)| !self.is_ancilla(*place));
        used_up.find_map(|(_, part)| part.use_of(variable))
    }

    /// The parts in written order.
    pub fn parts(&self) -> Vec<&Term> {
        match &self.kind {
            TermKind::Variable(_) | TermKind::Unit => vec![],
            TermKind::Inl(_, a) | TermKind::Inr(_, a) | TermKind::Roll(_, a) | TermKind::Unroll(_, a) => vec![a],
            TermKind::Pair(a, b) | TermKind::Let(a, b) | TermKind::LetPair(a, b) => vec![a, b],
            TermKind::Case(a, b, c) => vec![a, b, c],
            TermKind::Call(_, terms) => terms.iter().collect(),
        }
    }
}

impl Function {
    /// The parameters that a run reads and leaves.
    pub fn ancillae(&self) -> &[Parameter] {
        self.parameters.split_last().map_or(&[], |(_, ancillae)| ancillae)
    }

    /// The parameter that a run carries to the result.
    pub fn dynamic(&self) -> Option<&Parameter> {
        self.parameters.last()
    }
}
