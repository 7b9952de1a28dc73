//! Terms. `term` is given the type that its surroundings want, where that is known; it only serves to put constructors in.

use super::declare::Declared;
use super::rebuild::Parts;
use crate::core::term::{Parameter, Term, TermKind};
use crate::core::types::{TypeId, Types, View};
use crate::text::mistake::nearest;
use crate::text::tree::{Expr, ExprKind, FunctionDeclaration, Name, Side, TypeExpr};
use crate::text::{Mistake, Span};
use std::rc::Rc;

#[derive(Clone, Debug)]
pub struct Signature {
    pub name: String,
    pub parameters: Vec<Parameter>,
    pub result: TypeId,
}

/// A name in scope, and what it stands for: a variable, mostly.
pub(super) struct Bound {
    pub name: Rc<str>,
    pub parts: Parts,
}

pub(super) struct Builder<'a> {
    declared: Declared<'a>,
    signatures: Vec<Signature>,
    pub scope: Vec<Bound>,
    /// Variables in scope; a variable's number is how many there were before it.
    pub variables: usize,
    made: usize,
}

/// A program has at most 1,024 terms. A text that grows far beyond is stopped before it takes time and room.
const MOST_TERMS: usize = 16_384;

pub(super) type Made = Result<Term, Mistake>;

impl<'a> Builder<'a> {
    pub fn new(declared: Declared<'a>, signatures: Vec<Signature>) -> Builder<'a> {
        Builder { declared, signatures, scope: Vec::new(), variables: 0, made: 0 }
    }

    pub fn into_types(self) -> Types {
        self.declared.types
    }

    pub fn types(&mut self) -> &mut Types {
        &mut self.declared.types
    }

    pub fn signature(&self, number: usize) -> &Signature {
        &self.signatures[number]
    }

    pub fn body(&mut self, parameters: &[Parameter], result: TypeId, declaration: &FunctionDeclaration) -> Made {
        let bind = |(number, parameter): (usize, &Parameter)| Bound {
            name: parameter.name.as_str().into(),
            parts: Parts::Variable(number, Some(parameter.ty)),
        };
        self.scope = parameters.iter().enumerate().map(bind).collect();
        self.variables = parameters.len();
        self.made = 0;
        self.term(&declaration.body, Some(result))
    }

    pub fn make(&mut self, span: Span, kind: TermKind, ty: Option<TypeId>) -> Made {
        self.made += 1;
        if self.made > MOST_TERMS {
            return Err(Mistake::new(span, "this function grows to very many terms").help(
                "a program has at most 1,024: an arm that serves many alternatives is written out for each",
            ));
        }
        Ok(Term::new(span, kind, ty))
    }

    pub fn term(&mut self, expr: &Expr, want: Option<TypeId>) -> Made {
        let span = expr.span;
        match &expr.kind {
            ExprKind::Variable(name) => self.variable(name, span),
            ExprKind::Unit => {
                let unit = self.types().unit();
                self.make(span, TermKind::Unit, Some(unit))
            }
            ExprKind::Number(number) => self.number(*number, span, want),
            ExprKind::Tuple(parts) => self.tuple(parts, span, want),
            ExprKind::Construct(name, parts) => self.construct(name, parts, span),
            ExprKind::Call(name, arguments) => self.call(name, arguments, span),
            ExprKind::Inject(side, ty, part) => self.inject(*side, ty.as_ref(), part, span, want),
            ExprKind::Roll(ty, part) => self.roll(ty.as_ref(), part, span, want),
            ExprKind::Unroll(ty, part) => self.unroll(ty.as_ref(), part, span),
            ExprKind::Let(pattern, bound, body) => self.let_in(pattern, bound, body, span, want),
            ExprKind::Case(scrutinee, arms) => self.case_of(scrutinee, arms, span, want),
            ExprKind::Typed(inner, ty) => self.typed(inner, ty),
        }
    }

    fn variable(&mut self, name: &str, span: Span) -> Made {
        if let Some(bound) = self.scope.iter().rev().find(|bound| &*bound.name == name) {
            let parts = bound.parts.clone();
            return self.together(&parts, span);
        }
        if let Some(signature) = self.signatures.iter().find(|signature| signature.name == name) {
            let help = format!("give its arguments: {}", usage(signature));
            return Err(Mistake::new(span, format!("{name} is a function, not a value")).help(help));
        }
        let mistake = Mistake::new(span, format!("no variable is named {name} here"));
        Err(match nearest(name, self.scope.iter().map(|bound| &*bound.name)) {
            Some(near) => mistake.help(format!("did you mean {near}?")),
            None => mistake,
        })
    }

    /// Zero is roll inl (), and one more is roll inr.
    fn number(&mut self, number: usize, span: Span, want: Option<TypeId>) -> Made {
        let nat = match want {
            Some(want) if self.types().is_nat(want) => want,
            _ => self.types().declared_nat(),
        };
        let View::Fold(unfolded) = self.types().view(nat) else { return self.make(span, TermKind::Unit, None) };
        let unit = self.types().unit();
        let unit = self.make(span, TermKind::Unit, Some(unit))?;
        let zero = self.make(span, TermKind::Inl(unfolded, Box::new(unit)), Some(unfolded))?;
        let mut term = self.make(span, TermKind::Roll(nat, Box::new(zero)), Some(nat))?;
        for _ in 0..number {
            let more = self.make(span, TermKind::Inr(unfolded, Box::new(term)), Some(unfolded))?;
            term = self.make(span, TermKind::Roll(nat, Box::new(more)), Some(nat))?;
        }
        Ok(term)
    }

    fn tuple(&mut self, parts: &[Expr], span: Span, want: Option<TypeId>) -> Made {
        if let Some(folded) = self.folded(want, |view| matches!(view, View::Product(..))) {
            let inner = self.tuple(parts, span, Some(folded.1))?;
            return self.make(span, TermKind::Roll(folded.0, Box::new(inner)), Some(folded.0));
        }
        let (left_want, right_want) = match want.map(|want| self.types().view(want)) {
            Some(View::Product(left, right)) => (Some(left), Some(right)),
            _ => (None, None),
        };
        let left = self.term(&parts[0], left_want)?;
        let right = match &parts[1..] {
            [last] => self.term(last, right_want)?,
            rest => self.tuple(rest, rest[0].span.to(span), right_want)?,
        };
        let ty = match (left.ty, right.ty) {
            (Some(left), Some(right)) => Some(self.types().product(left, right)),
            _ => None,
        };
        self.make(span, TermKind::Pair(Box::new(left), Box::new(right)), ty)
    }

    /// A wanted recursive type whose unfolding has the wanted look, with that unfolding: a roll is put in.
    fn folded(&mut self, want: Option<TypeId>, look: impl Fn(View) -> bool) -> Option<(TypeId, TypeId)> {
        let want = want?;
        let View::Fold(unfolded) = self.types().view(want) else { return None };
        look(self.types().view(unfolded)).then_some((want, unfolded))
    }

    fn construct(&mut self, name: &Name, parts: &[Expr], span: Span) -> Made {
        let (variant, index) = self.alternative(name)?;
        let declared = self.types().variants[variant].clone();
        let wanted = &declared.alternatives[index].parts;
        if wanted.len() != parts.len() {
            let what = format!("{} has {}, and {} here", name.text, count(wanted.len()), are(parts.len()));
            return Err(Mistake::new(span, what));
        }
        let payload = self.payload(parts, wanted, span)?;
        let ty = self.types().intern(crate::core::types::Shape::Variant(variant));
        let whole = self.injections(index, declared.alternatives.len(), declared.body, payload, span)?;
        if declared.recursive {
            return self.make(span, TermKind::Roll(ty, Box::new(whole)), Some(ty));
        }
        Ok(Term { ty: Some(ty), ..whole })
    }

    fn payload(&mut self, parts: &[Expr], wanted: &[TypeId], span: Span) -> Made {
        let Some((first, rest)) = parts.split_first() else {
            let unit = self.types().unit();
            return self.make(span, TermKind::Unit, Some(unit));
        };
        let left = self.term(first, wanted.first().copied())?;
        if rest.is_empty() {
            return Ok(left);
        }
        let right = self.payload(rest, &wanted[1..], span)?;
        let ty = left.ty.zip(right.ty).map(|(left, right)| self.types().product(left, right));
        self.make(span, TermKind::Pair(Box::new(left), Box::new(right)), ty)
    }

    /// Alternative i of n is i times inr and then inl; the last is n - 1 times inr.
    fn injections(&mut self, index: usize, count: usize, sum: TypeId, payload: Term, span: Span) -> Made {
        let View::Sum(_, rest) = self.types().view(sum) else { return Ok(payload) };
        if count < 2 {
            return Ok(payload);
        }
        if index == 0 {
            return self.make(span, TermKind::Inl(sum, Box::new(payload)), Some(sum));
        }
        let inner = self.injections(index - 1, count - 1, rest, payload, span)?;
        self.make(span, TermKind::Inr(sum, Box::new(inner)), Some(sum))
    }

    pub fn alternative(&mut self, name: &Name) -> Result<(usize, usize), Mistake> {
        let types = self.types();
        types.alternative(&name.text).ok_or_else(|| {
            let mistake = Mistake::new(name.span, format!("no type has an alternative {}", name.text));
            let all = types.variants.iter().flat_map(|variant| &variant.alternatives);
            match nearest(&name.text, all.map(|alternative| alternative.name.as_str())) {
                Some(near) => mistake.help(format!("did you mean {near}?")),
                None => mistake.help(format!("declare it: type T = {} | ..", name.text)),
            }
        })
    }

    fn call(&mut self, name: &Name, arguments: &[Expr], span: Span) -> Made {
        let Some(function) = self.signatures.iter().position(|signature| signature.name == name.text) else {
            return Err(self.no_function(name));
        };
        let Signature { parameters, result, .. } = self.signatures[function].clone();
        let mut terms = Vec::new();
        for (number, argument) in arguments.iter().enumerate() {
            terms.push(self.term(argument, parameters.get(number).map(|parameter| parameter.ty))?);
        }
        self.make(span, TermKind::Call(function, terms), Some(result))
    }

    fn no_function(&self, name: &Name) -> Mistake {
        if self.scope.iter().any(|bound| *bound.name == *name.text) {
            return Mistake::new(name.span, format!("{} is a variable, and takes no arguments", name.text));
        }
        let mistake = Mistake::new(name.span, format!("no function is named {}", name.text));
        match nearest(&name.text, self.signatures.iter().map(|signature| signature.name.as_str())) {
            Some(near) => mistake.help(format!("did you mean {near}?")),
            None => mistake,
        }
    }

    fn inject(
        &mut self,
        side: Side,
        ty: Option<&TypeExpr>,
        part: &Expr,
        span: Span,
        want: Option<TypeId>,
    ) -> Made {
        if let Some(ty) = ty {
            let sum = self.declared.resolve(ty)?;
            return self.injection(side, sum, part, span);
        }
        if let Some((folded, unfolded)) = self.folded(want, |view| matches!(view, View::Sum(..))) {
            let inner = self.injection(side, unfolded, part, span)?;
            return self.make(span, TermKind::Roll(folded, Box::new(inner)), Some(folded));
        }
        match want {
            Some(want) if matches!(self.types().view(want), View::Sum(..)) => {
                self.injection(side, want, part, span)
            }
            _ => Err(untold(span, side.word(), "its whole sum type", "[A + B]", want.map(|want| self.told(want)))),
        }
    }

    fn injection(&mut self, side: Side, sum: TypeId, part: &Expr, span: Span) -> Made {
        let want = match (self.types().view(sum), side) {
            (View::Sum(left, _), Side::Left) => Some(left),
            (View::Sum(_, right), Side::Right) => Some(right),
            _ => None,
        };
        let part = Box::new(self.term(part, want)?);
        let kind = match side {
            Side::Left => TermKind::Inl(sum, part),
            Side::Right => TermKind::Inr(sum, part),
        };
        self.make(span, kind, Some(sum))
    }

    fn roll(&mut self, ty: Option<&TypeExpr>, part: &Expr, span: Span, want: Option<TypeId>) -> Made {
        let folded = match (ty, want) {
            (Some(ty), _) => self.declared.resolve(ty)?,
            (None, Some(want)) if matches!(self.types().view(want), View::Fold(_)) => want,
            _ => {
                let told = want.map(|want| self.told(want));
                return Err(untold(span, "roll", "its recursive type", "[type]", told));
            }
        };
        let want = self.unfolded(folded);
        let part = self.term(part, want)?;
        self.make(span, TermKind::Roll(folded, Box::new(part)), Some(folded))
    }

    fn unroll(&mut self, ty: Option<&TypeExpr>, part: &Expr, span: Span) -> Made {
        let (folded, part) = match ty {
            Some(ty) => {
                let folded = self.declared.resolve(ty)?;
                (folded, self.term(part, Some(folded))?)
            }
            None => {
                let part = self.term(part, None)?;
                match part.ty {
                    Some(ty) if matches!(self.types().view(ty), View::Fold(_)) => (ty, part),
                    ty => {
                        let told = ty.map(|ty| self.told(ty));
                        return Err(untold(span, "unroll", "its recursive type", "[type]", told));
                    }
                }
            }
        };
        let ty = self.unfolded(folded);
        self.make(span, TermKind::Unroll(folded, Box::new(part)), ty)
    }

    pub fn unfolded(&mut self, ty: TypeId) -> Option<TypeId> {
        match self.types().view(ty) {
            View::Fold(unfolded) => Some(unfolded),
            _ => None,
        }
    }

    /// The type that is written beside a term leaves no trace in the program, so that it is compared here.
    fn typed(&mut self, inner: &Expr, ty: &TypeExpr) -> Made {
        let written = self.declared.resolve(ty)?;
        let term = self.term(inner, Some(written))?;
        match term.ty {
            Some(found) if !self.types().equal(found, written) => {
                let what = format!("this is {}, and not {} as is written", self.told(found), self.told(written));
                Err(Mistake::new(inner.span, what))
            }
            _ => Ok(Term { ty: Some(written), ..term }),
        }
    }

    /// A type as the text writes it.
    pub fn told(&self, ty: TypeId) -> String {
        crate::core::program::type_text(&self.declared.types, ty, &|_| None)
    }
}

fn untold(span: Span, word: &str, needs: &str, written: &str, found: Option<String>) -> Mistake {
    let what = match found {
        Some(found) => format!("{word} needs {needs}, and {found} stands here"),
        None => format!("{word} needs {needs}, which cannot be told here"),
    };
    Mistake::new(span, what).help(format!("write it: {word} {written} (..)"))
}

/// How a function is called.
fn usage(signature: &Signature) -> String {
    let parameters = signature.parameters.iter().map(|parameter| format!(" {}", parameter.name));
    format!("{}{}", signature.name, parameters.collect::<String>())
}

pub(super) fn count(parts: usize) -> String {
    match parts {
        0 => "no parts".to_string(),
        1 => "one part".to_string(),
        _ => format!("{parts} parts"),
    }
}

pub(super) fn are(parts: usize) -> String {
    match parts {
        0 => "none is given".to_string(),
        1 => "one is given".to_string(),
        _ => format!("{parts} are given"),
    }
}
