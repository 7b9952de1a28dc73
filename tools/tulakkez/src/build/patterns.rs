//! Patterns in core form: alternatives and numbers become rolls, injections and pairs, as their types say.

use super::terms::{are, count, Builder};
use crate::core::types::{Shape, TypeId, View};
use crate::text::tree::{Name, Pattern, PatternKind, Side};
use crate::text::{Mistake, Span};
use std::rc::Rc;

#[derive(Clone, Debug)]
pub(super) struct CorePattern {
    pub span: Span,
    pub form: Form,
}

#[derive(Clone, Debug)]
pub(super) enum Form {
    /// Takes any value; a name or a hole of the row keeps it.
    Any(Option<Keeper>),
    Pair(Box<CorePattern>, Box<CorePattern>),
    Inject(Side, Box<CorePattern>),
    /// With the recursive type.
    Roll(TypeId, Box<CorePattern>),
}

#[derive(Clone, Debug)]
pub(super) enum Keeper {
    Name(Rc<str>),
    Hole(usize),
}

type Read = Result<CorePattern, Mistake>;

/// A pattern of a number is as deep as the number is large, and each level is a term.
const LARGEST: usize = 1_024;

fn any(span: Span, keeper: Option<Keeper>) -> CorePattern {
    CorePattern { span, form: Form::Any(keeper) }
}

impl Builder<'_> {
    /// A whole pattern; no name is bound twice in it.
    pub(super) fn pattern(&mut self, pattern: &Pattern, ty: Option<TypeId>) -> Read {
        let mut names: Vec<(&str, Span)> = Vec::new();
        bound_names(pattern, &mut names);
        for (number, &(name, span)) in names.iter().enumerate() {
            if let Some(&(_, before)) = names[..number].iter().find(|(other, _)| *other == name) {
                return Err(Mistake::new(span, format!("{name} is bound twice in this pattern"))
                    .note(before, "here first"));
            }
        }
        self.core_pattern(pattern, ty)
    }

    fn core_pattern(&mut self, pattern: &Pattern, ty: Option<TypeId>) -> Read {
        let span = pattern.span;
        match &pattern.kind {
            PatternKind::Any => Ok(any(span, None)),
            PatternKind::Variable(name) => Ok(any(span, Some(Keeper::Name(name.as_str().into())))),
            PatternKind::Unit => self.unit_pattern(span, ty),
            PatternKind::Number(number) => self.number_pattern(*number, span, ty),
            PatternKind::Tuple(parts) => self.tuple_pattern(parts, span, ty),
            PatternKind::Construct(name, parts) => self.construct_pattern(name, parts, span, ty),
            PatternKind::Inject(side, part) => self.inject_pattern(*side, part, span, ty),
            PatternKind::Roll(part) => self.roll_pattern(part, span, ty),
        }
    }

    fn unit_pattern(&mut self, span: Span, ty: Option<TypeId>) -> Read {
        match ty.map(|ty| (ty, self.types().view(ty))) {
            Some((ty, view)) if view != View::Unit => Err(self.misfit(span, "()", ty)),
            _ => Ok(any(span, None)),
        }
    }

    fn number_pattern(&mut self, number: usize, span: Span, ty: Option<TypeId>) -> Read {
        if number > LARGEST {
            return Err(Mistake::new(span, "this number is too large for a pattern")
                .help("a program has at most 1,024 terms"));
        }
        let nat = match ty {
            Some(ty) if !self.types().is_nat(ty) => return Err(self.misfit(span, "a number", ty)),
            Some(ty) => ty,
            None => self.types().nat(),
        };
        let wrap = |side, part| {
            let form = Form::Inject(side, Box::new(part));
            CorePattern { span, form: Form::Roll(nat, Box::new(CorePattern { span, form })) }
        };
        Ok((0..number).fold(wrap(Side::Left, any(span, None)), |pattern, _| wrap(Side::Right, pattern)))
    }

    fn tuple_pattern(&mut self, parts: &[Pattern], span: Span, ty: Option<TypeId>) -> Read {
        self.rolled(
            span,
            ty,
            "a tuple",
            |view| matches!(view, View::Product(..)),
            |builder, view| {
                let (left, right) = match view {
                    Some(View::Product(left, right)) => (Some(left), Some(right)),
                    _ => (None, None),
                };
                let first = builder.core_pattern(&parts[0], left)?;
                let rest = match &parts[1..] {
                    [last] => builder.core_pattern(last, right)?,
                    rest => builder.tuple_pattern(rest, rest[0].span.to(span), right)?,
                };
                Ok(CorePattern { span, form: Form::Pair(Box::new(first), Box::new(rest)) })
            },
        )
    }

    fn inject_pattern(&mut self, side: Side, part: &Pattern, span: Span, ty: Option<TypeId>) -> Read {
        self.rolled(
            span,
            ty,
            side.word(),
            |view| matches!(view, View::Sum(..)),
            |builder, view| {
                let ty = match (view, side) {
                    (Some(View::Sum(left, _)), Side::Left) => Some(left),
                    (Some(View::Sum(_, right)), Side::Right) => Some(right),
                    _ => None,
                };
                let part = builder.core_pattern(part, ty)?;
                Ok(CorePattern { span, form: Form::Inject(side, Box::new(part)) })
            },
        )
    }

    /// A pattern that a view fits, under a roll if the type is recursive and its unfolding fits.
    fn rolled(
        &mut self,
        span: Span,
        ty: Option<TypeId>,
        what: &str,
        fits: impl Fn(View) -> bool,
        inner: impl FnOnce(&mut Self, Option<View>) -> Read,
    ) -> Read {
        let Some(ty) = ty else { return inner(self, None) };
        match self.types().view(ty) {
            view if fits(view) => inner(self, Some(view)),
            View::Fold(unfolded) => match self.types().view(unfolded) {
                view if fits(view) => {
                    let part = inner(self, Some(view))?;
                    Ok(CorePattern { span, form: Form::Roll(ty, Box::new(part)) })
                }
                _ => Err(self.misfit(span, what, ty)),
            },
            _ => Err(self.misfit(span, what, ty)),
        }
    }

    fn roll_pattern(&mut self, part: &Pattern, span: Span, ty: Option<TypeId>) -> Read {
        match ty.map(|ty| (ty, self.types().view(ty))) {
            Some((ty, View::Fold(unfolded))) => {
                let part = self.core_pattern(part, Some(unfolded))?;
                Ok(CorePattern { span, form: Form::Roll(ty, Box::new(part)) })
            }
            Some((ty, _)) => Err(self.misfit(span, "roll", ty)),
            None => Err(Mistake::new(span, "the type of what is matched here cannot be told")),
        }
    }

    fn construct_pattern(&mut self, name: &Name, parts: &[Pattern], span: Span, ty: Option<TypeId>) -> Read {
        let (variant, index) = self.alternative(name)?;
        let own = self.types().intern(Shape::Variant(variant));
        if let Some(ty) = ty {
            if !self.types().equal(ty, own) {
                let what = format!("{} is an alternative of {}", name.text, self.told(own));
                return Err(Mistake::new(span, format!("{what}, and {} is matched here", self.told(ty))));
            }
        }
        let declared = self.types().variants[variant].clone();
        let wanted = &declared.alternatives[index].parts;
        if wanted.len() != parts.len() {
            let what = format!("{} has {}, and {} here", name.text, count(wanted.len()), are(parts.len()));
            return Err(Mistake::new(span, what).help("_ stands for a part of unit type that is not wanted"));
        }
        let payload = self.payload_pattern(parts, wanted, span)?;
        let mut pattern = payload;
        let last = declared.alternatives.len() - 1;
        if index < last {
            pattern = CorePattern { span, form: Form::Inject(Side::Left, Box::new(pattern)) };
        }
        for _ in 0..index {
            pattern = CorePattern { span, form: Form::Inject(Side::Right, Box::new(pattern)) };
        }
        if declared.recursive {
            pattern = CorePattern { span, form: Form::Roll(ty.unwrap_or(own), Box::new(pattern)) };
        }
        Ok(pattern)
    }

    fn payload_pattern(&mut self, parts: &[Pattern], wanted: &[TypeId], span: Span) -> Read {
        let Some((first, rest)) = parts.split_first() else { return Ok(any(span, None)) };
        let left = self.core_pattern(first, wanted.first().copied())?;
        if rest.is_empty() {
            return Ok(left);
        }
        let right = self.payload_pattern(rest, &wanted[1..], span)?;
        Ok(CorePattern { span, form: Form::Pair(Box::new(left), Box::new(right)) })
    }

    fn misfit(&mut self, span: Span, what: &str, ty: TypeId) -> Mistake {
        Mistake::new(span, format!("this pattern is {what}, and {} is matched here", self.told(ty)))
    }
}

fn bound_names<'a>(pattern: &'a Pattern, names: &mut Vec<(&'a str, Span)>) {
    match &pattern.kind {
        PatternKind::Any | PatternKind::Unit | PatternKind::Number(_) => (),
        PatternKind::Variable(name) => names.push((name, pattern.span)),
        PatternKind::Tuple(parts) | PatternKind::Construct(_, parts) => {
            parts.iter().for_each(|part| bound_names(part, names));
        }
        PatternKind::Inject(_, part) | PatternKind::Roll(part) => bound_names(part, names),
    }
}
