//! Programs as trees, before they are laid out as entries. Tests, measurements and made calls start here.

use crate::assemble::Assembler;
use crate::rng::Rng;
use std::collections::HashMap;
use std::rc::Rc;

pub type Type = Rc<TypeTree>;

#[derive(Clone, PartialEq, Eq, Hash, Debug)]
pub enum TypeTree {
    Unit,
    Product(Type, Type),
    Sum(Type, Type),
    Recursive(Type),
    Bound(u8),
}

#[derive(Clone, PartialEq, Eq, Debug)]
pub enum Term {
    Variable(u8),
    Unit,
    Inl(Type, Box<Term>),
    Inr(Type, Box<Term>),
    Pair(Box<Term>, Box<Term>),
    Let(Box<Term>, Box<Term>),
    LetPair(Box<Term>, Box<Term>),
    Case(Box<Term>, Box<Term>, Box<Term>),
    Call(u16, Vec<Term>),
    Roll(Type, Box<Term>),
    Unroll(Type, Box<Term>),
}

#[derive(Clone, Debug)]
pub struct Function {
    pub parameters: Vec<Type>,
    pub result: Type,
    pub body: Term,
}

#[derive(Clone, Default, Debug)]
pub struct Draft {
    pub functions: Vec<Function>,
}

impl Draft {
    /// Each type once, parts in written order, functions one after another.
    pub fn bytes(&self) -> Vec<u8> {
        self.laid_out(&mut Layout::default())
    }

    /// The same program with entries in another possible order, equal types repeated, and types that nothing names.
    pub fn shuffled(&self, rng: &mut Rng) -> Vec<u8> {
        self.laid_out(&mut Layout { rng: Some(rng), ..Layout::default() })
    }

    /// The same with what is written later in the lower entries, part for part.
    pub fn backwards(&self) -> Vec<u8> {
        self.laid_out(&mut Layout { backwards: true, ..Layout::default() })
    }

    fn laid_out(&self, layout: &mut Layout) -> Vec<u8> {
        let mut order: Vec<usize> = (0..self.functions.len()).collect();
        if layout.toss(30) {
            order.reverse();
        }
        let mut bodies = vec![0; order.len()];
        for number in order {
            bodies[number] = layout.term(&self.functions[number].body);
        }
        for (function, &body) in self.functions.iter().zip(&bodies) {
            let parameters: Vec<u16> = function.parameters.iter().map(|ty| layout.ty(ty)).collect();
            let result = layout.ty(&function.result);
            layout.assembler.function(result, &parameters, body);
        }
        layout.assembler.bytes()
    }
}

#[derive(Default)]
struct Layout<'a> {
    assembler: Assembler,
    types: HashMap<Type, u16>,
    rng: Option<&'a mut Rng>,
    backwards: bool,
}

impl Layout<'_> {
    fn toss(&mut self, percent: usize) -> bool {
        self.rng.as_mut().is_some_and(|rng| rng.chance(percent))
    }

    fn ty(&mut self, ty: &Type) -> u16 {
        if let Some(&entry) = self.types.get(ty) {
            if !self.toss(6) {
                return entry;
            }
        }
        if self.toss(2) {
            self.assembler.bound(3);
        }
        let entry = match &**ty {
            TypeTree::Unit => self.assembler.unit_type(),
            TypeTree::Bound(skipped) => self.assembler.bound(*skipped),
            TypeTree::Recursive(inner) => {
                let inner = self.ty(inner);
                self.assembler.recursive(inner)
            }
            TypeTree::Product(left, right) => {
                let (left, right) = (self.ty(left), self.ty(right));
                self.assembler.product(left, right)
            }
            TypeTree::Sum(left, right) => {
                let (left, right) = (self.ty(left), self.ty(right));
                self.assembler.sum(left, right)
            }
        };
        self.types.insert(ty.clone(), entry);
        entry
    }

    fn term(&mut self, term: &Term) -> u16 {
        let parts = self.terms(&term.parts());
        match (term, &parts[..]) {
            (Term::Inl(ty, _), &[part]) => {
                let sum = self.ty(ty);
                self.assembler.inl(sum, part)
            }
            (Term::Inr(ty, _), &[part]) => {
                let sum = self.ty(ty);
                self.assembler.inr(sum, part)
            }
            (Term::Roll(ty, _), &[part]) => {
                let recursive = self.ty(ty);
                self.assembler.roll(recursive, part)
            }
            (Term::Unroll(ty, _), &[part]) => {
                let recursive = self.ty(ty);
                self.assembler.unroll(recursive, part)
            }
            (Term::Pair(..), &[left, right]) => self.assembler.pair(left, right),
            (Term::Let(..), &[bound, body]) => self.assembler.let_one(bound, body),
            (Term::LetPair(..), &[bound, body]) => self.assembler.let_pair(bound, body),
            (Term::Case(..), &[scrutinee, left, right]) => self.assembler.case(scrutinee, left, right),
            (Term::Call(function, _), terms) => self.assembler.call(*function, terms),
            (Term::Variable(number), _) => self.assembler.variable(*number),
            _ => self.assembler.unit(),
        }
    }

    fn terms(&mut self, parts: &[&Term]) -> Vec<u16> {
        if !self.backwards && !self.toss(20) {
            return parts.iter().map(|part| self.term(part)).collect();
        }
        let mut entries: Vec<u16> = parts.iter().rev().map(|part| self.term(part)).collect();
        entries.reverse();
        entries
    }
}

impl Term {
    /// The parts in written order.
    pub fn parts(&self) -> Vec<&Term> {
        match self {
            Term::Variable(_) | Term::Unit => vec![],
            Term::Inl(_, a) | Term::Inr(_, a) | Term::Roll(_, a) | Term::Unroll(_, a) => vec![a],
            Term::Pair(a, b) | Term::Let(a, b) | Term::LetPair(a, b) => vec![a, b],
            Term::Case(a, b, c) => vec![a, b, c],
            Term::Call(_, terms) => terms.iter().collect(),
        }
    }

    pub fn parts_mut(&mut self) -> Vec<&mut Term> {
        match self {
            Term::Variable(_) | Term::Unit => vec![],
            Term::Inl(_, a) | Term::Inr(_, a) | Term::Roll(_, a) | Term::Unroll(_, a) => vec![a],
            Term::Pair(a, b) | Term::Let(a, b) | Term::LetPair(a, b) => vec![a, b],
            Term::Case(a, b, c) => vec![a, b, c],
            Term::Call(_, terms) => terms.iter_mut().collect(),
        }
    }

    /// How many terms the tree has.
    pub fn count(&self) -> usize {
        1 + self.parts().into_iter().map(Term::count).sum::<usize>()
    }
}

pub fn unit_type() -> Type {
    Rc::new(TypeTree::Unit)
}

pub fn product(left: &Type, right: &Type) -> Type {
    Rc::new(TypeTree::Product(left.clone(), right.clone()))
}

pub fn sum(left: &Type, right: &Type) -> Type {
    Rc::new(TypeTree::Sum(left.clone(), right.clone()))
}

pub fn recursive(inner: &Type) -> Type {
    Rc::new(TypeTree::Recursive(inner.clone()))
}

pub fn bound(skipped: u8) -> Type {
    Rc::new(TypeTree::Bound(skipped))
}

pub fn boolean() -> Type {
    sum(&unit_type(), &unit_type())
}

pub fn nat() -> Type {
    recursive(&sum(&unit_type(), &bound(0)))
}

/// Lists of a closed type.
pub fn list(element: &Type) -> Type {
    recursive(&sum(&unit_type(), &product(element, &bound(0))))
}

/// The unfolding of a closed recursive type; any other type is handed back.
pub fn unfold(ty: &Type) -> Type {
    match &**ty {
        TypeTree::Recursive(inner) => substitute(inner, 0, ty),
        _ => ty.clone(),
    }
}

/// A closed type for the variable that skips `depth` recursive entries.
pub fn substitute(ty: &Type, depth: u8, with: &Type) -> Type {
    match &**ty {
        TypeTree::Unit => ty.clone(),
        TypeTree::Bound(skipped) if *skipped == depth => with.clone(),
        TypeTree::Bound(_) => ty.clone(),
        TypeTree::Recursive(inner) => recursive(&substitute(inner, depth + 1, with)),
        TypeTree::Product(a, b) => product(&substitute(a, depth, with), &substitute(b, depth, with)),
        TypeTree::Sum(a, b) => sum(&substitute(a, depth, with), &substitute(b, depth, with)),
    }
}

pub fn variable(number: usize) -> Term {
    Term::Variable(number as u8)
}

pub fn inl(ty: &Type, part: Term) -> Term {
    Term::Inl(ty.clone(), Box::new(part))
}

pub fn inr(ty: &Type, part: Term) -> Term {
    Term::Inr(ty.clone(), Box::new(part))
}

pub fn pair(left: Term, right: Term) -> Term {
    Term::Pair(Box::new(left), Box::new(right))
}

pub fn let_one(bound: Term, body: Term) -> Term {
    Term::Let(Box::new(bound), Box::new(body))
}

pub fn let_pair(bound: Term, body: Term) -> Term {
    Term::LetPair(Box::new(bound), Box::new(body))
}

pub fn case(scrutinee: Term, left: Term, right: Term) -> Term {
    Term::Case(Box::new(scrutinee), Box::new(left), Box::new(right))
}

pub fn call(function: usize, terms: Vec<Term>) -> Term {
    Term::Call(function as u16, terms)
}

pub fn roll(ty: &Type, part: Term) -> Term {
    Term::Roll(ty.clone(), Box::new(part))
}

pub fn unroll(ty: &Type, part: Term) -> Term {
    Term::Unroll(ty.clone(), Box::new(part))
}
