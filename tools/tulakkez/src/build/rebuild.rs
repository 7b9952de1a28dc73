//! The rows of a matching, and names for values that were taken apart before their name was reached: where such a name is used, its value is
//! put together again. A let would do as well for typing; but what the engine knows of a variable is nothing, and what it knows of a constructor
//! is its form, by which it tells branches apart.

use super::matching::Untaken;
use super::patterns::{CorePattern, Form, Keeper};
use super::terms::{Builder, Made};
use crate::core::term::TermKind;
use crate::core::types::{Shape, TypeId, View};
use crate::text::tree::Side;
use crate::text::{Mistake, Span};
use std::collections::HashMap;
use std::rc::Rc;

#[derive(Clone, Copy)]
pub(super) enum Split {
    Pair,
    /// With the whole sum type, where it is known.
    Inject(Side, Option<TypeId>),
    Roll(TypeId),
}

/// How the value of a hole is put together.
#[derive(Clone, Copy)]
enum Filling {
    Pair(usize, usize),
    Inject(Side, TypeId, usize),
    Roll(TypeId, usize),
}

#[derive(Clone)]
struct Renamed {
    name: Rc<str>,
    hole: usize,
}

/// A value as variables put together.
#[derive(Clone)]
pub(super) enum Parts {
    Variable(usize, Option<TypeId>),
    Pair(Rc<Parts>, Rc<Parts>),
    Inject(Side, TypeId, Rc<Parts>),
    Roll(TypeId, Rc<Parts>),
}

#[derive(Clone)]
pub(super) struct Row {
    pub patterns: Vec<CorePattern>,
    pub arm: usize,
    renamed: Vec<Renamed>,
    filled: HashMap<usize, Filling>,
    holes: usize,
}

impl Row {
    pub fn new(pattern: CorePattern, arm: usize) -> Row {
        Row { patterns: vec![pattern], arm, renamed: Vec::new(), filled: HashMap::new(), holes: 0 }
    }

    /// The row once a column has been taken apart; none if it does not take such values.
    pub fn special(mut self, at: usize, split: &Split) -> Result<Option<Row>, Mistake> {
        let CorePattern { span, form } = self.patterns.remove(at);
        let parts = match (form, split) {
            (Form::Pair(left, right), Split::Pair) => vec![*left, *right],
            (Form::Inject(own, part), Split::Inject(side, _)) if own == *side => vec![*part],
            (Form::Inject(..), Split::Inject(..)) => return Ok(None),
            (Form::Roll(_, part), Split::Roll(_)) => vec![*part],
            (Form::Any(keeper), _) => self.opened(keeper, split, span)?,
            _ => return Err(Mistake::new(span, "this pattern does not fit those before it")),
        };
        for (offset, part) in parts.into_iter().enumerate() {
            self.patterns.insert(at + offset, part);
        }
        Ok(Some(self))
    }

    /// The parts of a pattern that takes anything, with holes that keep them if the whole is kept.
    fn opened(&mut self, keeper: Option<Keeper>, split: &Split, span: Span) -> Result<Vec<CorePattern>, Mistake> {
        let parts = if matches!(split, Split::Pair) { 2 } else { 1 };
        let hole = match keeper {
            None => return Ok(vec![CorePattern { span, form: Form::Any(None) }; parts]),
            Some(Keeper::Hole(hole)) => hole,
            Some(Keeper::Name(name)) => {
                let hole = self.hole();
                self.renamed.push(Renamed { name, hole });
                hole
            }
        };
        let holes: Vec<usize> = (0..parts).map(|_| self.hole()).collect();
        let filling = match *split {
            Split::Pair => Filling::Pair(holes[0], holes[1]),
            Split::Inject(side, Some(sum)) => Filling::Inject(side, sum, holes[0]),
            Split::Inject(_, None) => return Err(Mistake::new(span, "the type of this variable cannot be told")),
            Split::Roll(folded) => Filling::Roll(folded, holes[0]),
        };
        self.filled.insert(hole, filling);
        let part = |hole| CorePattern { span, form: Form::Any(Some(Keeper::Hole(hole))) };
        Ok(holes.into_iter().map(part).collect())
    }

    fn hole(&mut self) -> usize {
        self.holes += 1;
        self.holes - 1
    }
}

/// A hole with the variable that holds its value.
pub(super) type Held = (usize, usize, Option<TypeId>);

impl Row {
    /// The names whose values were taken apart, with what they are put together from.
    pub fn rebuilt(&self, held: &[Held]) -> Vec<(Rc<str>, Parts)> {
        self.renamed
            .iter()
            .filter_map(|Renamed { name, hole }| Some((name.clone(), self.parts(held, *hole)?)))
            .collect()
    }

    fn parts(&self, held: &[Held], hole: usize) -> Option<Parts> {
        let part = |hole| self.parts(held, hole).map(Rc::new);
        Some(match self.filled.get(&hole).copied() {
            None => held.iter().find(|held| held.0 == hole).map(|&(_, number, ty)| Parts::Variable(number, ty))?,
            Some(Filling::Pair(left, right)) => Parts::Pair(part(left)?, part(right)?),
            Some(Filling::Inject(side, sum, inner)) => Parts::Inject(side, sum, part(inner)?),
            Some(Filling::Roll(folded, inner)) => Parts::Roll(folded, part(inner)?),
        })
    }
}

impl Builder<'_> {
    /// The term that puts a value together, at the place where its name is used.
    pub(super) fn together(&mut self, parts: &Parts, span: Span) -> Made {
        match parts {
            Parts::Variable(number, ty) => self.make(span, TermKind::Variable(*number), *ty),
            Parts::Pair(left, right) => {
                let (left, right) = (self.together(left, span)?, self.together(right, span)?);
                let ty = left.ty.zip(right.ty).map(|(left, right)| self.types().product(left, right));
                self.make(span, TermKind::Pair(Box::new(left), Box::new(right)), ty)
            }
            Parts::Inject(side, sum, part) => {
                let part = Box::new(self.together(part, span)?);
                let kind = match side {
                    Side::Left => TermKind::Inl(*sum, part),
                    Side::Right => TermKind::Inr(*sum, part),
                };
                self.make(span, kind, Some(*sum))
            }
            Parts::Roll(folded, part) => {
                let part = Box::new(self.together(part, span)?);
                self.make(span, TermKind::Roll(*folded, part), Some(*folded))
            }
        }
    }

    /// A form of value as a pattern would write it.
    pub(super) fn untaken(&mut self, form: &Untaken, ty: Option<TypeId>, inside: bool) -> String {
        if let (Some(ty), false) = (ty, matches!(form, Untaken::Any)) {
            if let Shape::Variant(number) = self.types().shape(ty) {
                return self.untaken_alternative(form, number, inside);
            }
        }
        let view = ty.map(|ty| self.types().view(ty));
        let (first, second) = match view {
            Some(View::Product(first, second) | View::Sum(first, second)) => (Some(first), Some(second)),
            Some(View::Fold(unfolded)) => (Some(unfolded), None),
            _ => (None, None),
        };
        match form {
            Untaken::Any => "_".to_string(),
            Untaken::Pair(left, right) => {
                format!("({}, {})", self.untaken(left, first, false), self.untaken(right, second, false))
            }
            Untaken::Inject(Side::Left, part) => format!("inl {}", self.untaken(part, first, true)),
            Untaken::Inject(Side::Right, part) => format!("inr {}", self.untaken(part, second, true)),
            Untaken::Roll(part) => format!("roll {}", self.untaken(part, first, true)),
        }
    }

    fn untaken_alternative(&mut self, form: &Untaken, number: usize, inside: bool) -> String {
        let variant = self.types().variants[number].clone();
        let mut form = match form {
            Untaken::Roll(inner) if variant.recursive => inner,
            other => other,
        };
        let mut index = 0;
        while index + 1 < variant.alternatives.len() {
            let Untaken::Inject(side, inner) = form else { break };
            form = inner;
            if *side == Side::Left {
                break;
            }
            index += 1;
        }
        let Some(alternative) = variant.alternatives.get(index) else { return "_".to_string() };
        let mut text = alternative.name.clone();
        for (part, ty) in alternative.parts.iter().enumerate() {
            let last = part + 1 == alternative.parts.len();
            let (own, rest) = match form {
                Untaken::Pair(left, right) if !last => (&**left, &**right),
                other if last => (other, other),
                _ => (&Untaken::Any, &Untaken::Any),
            };
            text += &format!(" {}", self.untaken(own, Some(*ty), true));
            form = rest;
        }
        if inside && text.contains(' ') {
            text = format!("({text})");
        }
        text
    }
}
