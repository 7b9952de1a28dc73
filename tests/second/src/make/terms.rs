//! Well-typed functions built type first.
//!
//! `Writer::term` is given a goal type and the exact set of dynamic variables (other than units) that the term must
//! use; every construct splits that set among its parts. What is left over is consumed by sinks, functions to unit
//! that are added as they are needed. A writer with a fault rate breaks a rule here and there on the way, so that the
//! program is right everywhere else.

use super::types::{random_type, smallest, smallest_term};
use crate::draft::*;
use crate::rng::Rng;

#[derive(Clone)]
struct Binding {
    ty: Type,
    dynamic: bool,
}

#[derive(Clone)]
struct Signature {
    parameters: Vec<Type>,
    result: Type,
}

/// Dynamic variables by number, one bit each.
type Uses = u64;

pub struct Writer<'a> {
    rng: &'a mut Rng,
    pool: Vec<Type>,
    signatures: Vec<Signature>,
    scope: Vec<Binding>,
    /// Variables in scope at the innermost ancilla argument.
    barrier: usize,
    /// Terms that may still branch out; below zero the shortest way is taken.
    budget: isize,
    /// In a thousand choices, how many break a rule.
    fault_rate: usize,
}

/// Beyond this many variables only the shortest way is taken, which binds one at a time.
const ROOMY_SCOPE: usize = 27;

pub fn random_program(rng: &mut Rng, fault_rate: usize) -> Draft {
    // Small programs mostly: what they show does not hide behind what stands before it.
    let most_terms = if rng.chance(15) { 300 } else { 60 };
    loop {
        let pool: Vec<Type> = (0..rng.between(2, 4)).map(|_| random_type(rng)).collect();
        let mut writer =
            Writer { rng, pool, signatures: Vec::new(), scope: Vec::new(), barrier: 0, budget: 0, fault_rate };
        let draft = writer.program();
        let terms: usize = draft.functions.iter().map(|function| function.body.count()).sum();
        if draft.functions.len() <= 24 && terms <= most_terms {
            return draft;
        }
    }
}

impl Writer<'_> {
    fn program(&mut self) -> Draft {
        let written = self.rng.between(1, 4);
        for _ in 0..written {
            let signature = self.signature();
            self.signatures.push(signature);
        }
        let mut functions = Vec::new();
        for number in 0..written {
            self.budget = self.rng.between(2, 30) as isize;
            let signature = self.signatures[number].clone();
            let body = self.body(&signature);
            functions.push(Function { parameters: signature.parameters, result: signature.result, body });
        }
        while functions.len() < self.signatures.len() && functions.len() < 32 {
            let signature = self.signatures[functions.len()].clone();
            let body = self.sink_body(&signature.parameters[0]);
            functions.push(Function { parameters: signature.parameters, result: signature.result, body });
        }
        Draft { functions }
    }

    fn signature(&mut self) -> Signature {
        let most = if self.rng.chance(5) { 8 } else { 3 };
        let count = self.rng.between(1, most);
        let parameters: Vec<Type> = (0..count).map(|_| self.some_type()).collect();
        let dynamic = &parameters[count - 1];
        let result = match self.rng.below(5) {
            0 | 1 => dynamic.clone(),
            2 => product(dynamic, &self.some_type()),
            3 => sum(dynamic, &self.some_type()),
            _ => self.some_type(),
        };
        Signature { parameters, result }
    }

    fn some_type(&mut self) -> Type {
        let ty = self.rng.pick(&self.pool).clone();
        match self.rng.below(12) {
            0 => unit_type(),
            1 => product(&ty, self.rng.pick(&self.pool)),
            2 => sum(&ty, self.rng.pick(&self.pool)),
            3 => product(&unit_type(), &ty),
            _ => ty,
        }
    }

    fn body(&mut self, signature: &Signature) -> Term {
        let dynamic = signature.parameters.len() - 1;
        let bind = |(number, ty): (usize, &Type)| Binding { ty: ty.clone(), dynamic: number == dynamic };
        self.scope = signature.parameters.iter().enumerate().map(bind).collect();
        self.barrier = 0;
        let uses = self.required(dynamic);
        self.term(&signature.result, uses)
    }

    /// The use that a newly bound variable asks for: none for units.
    fn required(&mut self, number: usize) -> Uses {
        let forgotten = self.fault();
        if *self.scope[number].ty == TypeTree::Unit || forgotten {
            0
        } else {
            1 << number
        }
    }

    fn fault(&mut self) -> bool {
        self.rng.below(1000) < self.fault_rate
    }

    fn term(&mut self, goal: &Type, uses: Uses) -> Term {
        if self.fault() {
            return self.faulty(goal, uses);
        }
        self.budget -= 1;
        if self.budget < 0 || self.scope.len() > ROOMY_SCOPE {
            return self.shortest(goal, uses);
        }
        for _ in 0..6 {
            let tried = match self.rng.below(13) {
                0 | 1 => self.leaf(goal, uses),
                2..=4 => self.constructor(goal, uses),
                5..=7 => self.decompose(goal, uses),
                8 | 9 => self.call_to(goal, uses),
                10 => self.let_any(goal, uses),
                11 => self.case_any(goal, uses),
                _ => self.unrolled(goal, uses),
            };
            if let Some(term) = tried {
                return term;
            }
        }
        self.shortest(goal, uses)
    }

    /// A variable of the goal type, or unit, that uses exactly the given variables.
    fn leaf(&mut self, goal: &Type, uses: Uses) -> Option<Term> {
        if uses.count_ones() == 1 {
            let number = uses.trailing_zeros() as usize;
            return (self.scope[number].ty == *goal).then(|| variable(number));
        }
        if uses != 0 {
            return None;
        }
        let mut leaves: Vec<Term> = Vec::new();
        for (number, binding) in self.scope.iter().enumerate() {
            let free = !binding.dynamic || (number >= self.barrier && *binding.ty == TypeTree::Unit);
            if free && binding.ty == *goal {
                leaves.push(variable(number));
            }
        }
        if **goal == TypeTree::Unit {
            leaves.push(Term::Unit);
        }
        leaves.get(self.rng.below(leaves.len())).cloned()
    }

    fn constructor(&mut self, goal: &Type, uses: Uses) -> Option<Term> {
        Some(match &**goal {
            TypeTree::Unit | TypeTree::Bound(_) => return (uses == 0).then_some(Term::Unit),
            TypeTree::Sum(left, right) => {
                let left_only = smallest(right).is_none();
                if left_only || (smallest(left).is_some() && self.rng.chance(50)) {
                    inl(goal, self.term(left, uses))
                } else {
                    inr(goal, self.term(right, uses))
                }
            }
            TypeTree::Product(left, right) => {
                let (first, second) = self.split(uses);
                pair(self.term(left, first), self.term(right, second))
            }
            TypeTree::Recursive(_) => roll(goal, self.term(&unfold(goal), uses)),
        })
    }

    /// Two sets whose union is the given one; they may overlap.
    fn split(&mut self, uses: Uses) -> (Uses, Uses) {
        let (mut first, mut second) = (0, 0);
        for number in numbers(uses) {
            let side = self.rng.below(7);
            first |= if side <= 3 { 1 << number } else { 0 };
            second |= if side >= 3 { 1 << number } else { 0 };
        }
        (first, second)
    }

    /// Takes one of the variables apart and goes on with its parts.
    fn decompose(&mut self, goal: &Type, uses: Uses) -> Option<Term> {
        let candidates: Vec<usize> = if uses != 0 {
            numbers(uses).collect()
        } else {
            (0..self.scope.len()).filter(|&number| !self.scope[number].dynamic).collect()
        };
        let number = *candidates.get(self.rng.below(candidates.len()))?;
        let again = self.rng.chance(12);
        let rest = if again { uses } else { uses & !(1 << number) };
        let ty = self.scope[number].ty.clone();
        match &*ty {
            TypeTree::Unit | TypeTree::Bound(_) => None,
            TypeTree::Product(left, right) => {
                Some(let_pair(variable(number), self.under(&[left, right], goal, rest)))
            }
            TypeTree::Sum(left, right) => Some(self.branches(variable(number), left, right, goal, rest)),
            TypeTree::Recursive(_) => {
                let unfolded = unfold(&ty);
                let opened = unroll(&ty, variable(number));
                match &*unfolded {
                    TypeTree::Sum(left, right) => Some(self.branches(opened, left, right, goal, rest)),
                    _ => Some(let_one(opened, self.under(&[&unfolded], goal, rest))),
                }
            }
        }
    }

    fn branches(&mut self, scrutinee: Term, left: &Type, right: &Type, goal: &Type, uses: Uses) -> Term {
        let left = self.under(&[left], goal, uses);
        // Branches that use different variables, or differ in type.
        let right_uses = if self.fault() { uses & (uses >> 1) } else { uses };
        let right = self.under(&[right], goal, right_uses);
        case(scrutinee, left, right)
    }

    /// A term under newly bound dynamic variables, which it uses.
    fn under(&mut self, bound: &[&Type], goal: &Type, uses: Uses) -> Term {
        let outer = self.scope.len();
        let mut inner_uses = uses;
        for &ty in bound {
            self.scope.push(Binding { ty: ty.clone(), dynamic: true });
            inner_uses |= self.required(self.scope.len() - 1);
        }
        let term = self.term(goal, inner_uses);
        self.scope.truncate(outer);
        term
    }

    fn call_to(&mut self, goal: &Type, uses: Uses) -> Option<Term> {
        let fits = |s: &Signature| s.result == *goal && s.parameters.iter().all(|ty| smallest(ty).is_some());
        let fitting: Vec<usize> =
            (0..self.signatures.len()).filter(|&function| fits(&self.signatures[function])).collect();
        let function = *fitting.get(self.rng.below(fitting.len()))?;
        let signature = self.signatures[function].clone();
        let (dynamic, ancillae) = signature.parameters.split_last()?;
        let mut terms: Vec<Term> = ancillae.iter().map(|ty| self.ancilla_argument(ty)).collect();
        terms.push(self.term(dynamic, uses));
        if self.fault() {
            terms.pop();
            terms.extend(vec![Term::Unit; self.rng.between(1, 2)]);
        }
        Some(call(function, terms))
    }

    fn ancilla_argument(&mut self, ty: &Type) -> Term {
        let outer_barrier = self.barrier;
        if self.fault() || self.fault() || self.fault() {
            let barred = |binding: &Binding| binding.dynamic && binding.ty == *ty;
            if let Some(number) = self.scope.iter().position(barred) {
                return variable(number);
            }
        }
        self.barrier = self.scope.len();
        let term = self.term(ty, 0);
        self.barrier = outer_barrier;
        term
    }

    fn let_any(&mut self, goal: &Type, uses: Uses) -> Option<Term> {
        let (bound_uses, rest) = self.split(uses);
        let ty = match numbers(bound_uses).next() {
            Some(number) if self.rng.chance(50) => self.scope[number].ty.clone(),
            _ => self.some_type(),
        };
        smallest(&ty)?;
        let bound = self.term(&ty, bound_uses);
        match &*ty {
            TypeTree::Product(left, right) if self.rng.chance(60) => {
                Some(let_pair(bound, self.under(&[left, right], goal, rest)))
            }
            _ => Some(let_one(bound, self.under(&[&ty], goal, rest))),
        }
    }

    fn case_any(&mut self, goal: &Type, uses: Uses) -> Option<Term> {
        let (scrutinee_uses, rest) = self.split(uses);
        let ty = if self.rng.chance(50) { boolean() } else { sum(&self.some_type(), &unit_type()) };
        let TypeTree::Sum(left, right) = &*ty else { return None };
        let scrutinee = self.term(&ty, scrutinee_uses);
        Some(self.branches(scrutinee, left, right, goal, rest))
    }

    fn unrolled(&mut self, goal: &Type, uses: Uses) -> Option<Term> {
        let unfolds = |ty: &&Type| matches!(***ty, TypeTree::Recursive(_)) && unfold(ty) == *goal;
        let ty = self.pool.iter().find(unfolds)?.clone();
        Some(unroll(&ty, self.term(&ty, uses)))
    }

    /// A term that ends soon: what does not fit the goal goes into sinks.
    fn shortest(&mut self, goal: &Type, uses: Uses) -> Term {
        if let Some(leaf) = self.leaf(goal, uses) {
            return leaf;
        }
        if uses == 0 {
            return smallest_term(goal);
        }
        if let TypeTree::Product(left, right) = &**goal {
            let fits_left = |number: &usize| self.scope[*number].ty == *left;
            let first = numbers(uses).filter(fits_left).fold(0, |uses, number| uses | 1 << number);
            return pair(self.shortest(left, first), self.shortest(right, uses & !first));
        }
        let mut sunk: Option<Term> = None;
        for number in numbers(uses) {
            let sink = self.sink(number);
            sunk = Some(sunk.map_or(sink.clone(), |bound| let_one(bound, sink)));
        }
        let_one(sunk.unwrap_or(Term::Unit), smallest_term(goal))
    }

    fn sink(&mut self, number: usize) -> Term {
        let ty = self.scope[number].ty.clone();
        let function = self.sink_function(&ty);
        call(function, vec![variable(number)])
    }

    fn sink_function(&mut self, ty: &Type) -> usize {
        let wanted =
            |s: &Signature| s.parameters.len() == 1 && s.parameters[0] == *ty && *s.result == TypeTree::Unit;
        self.signatures.iter().position(wanted).unwrap_or_else(|| {
            self.signatures.push(Signature { parameters: vec![ty.clone()], result: unit_type() });
            self.signatures.len() - 1
        })
    }

    fn sink_body(&mut self, ty: &Type) -> Term {
        let consume = |writer: &mut Self, ty: &Type, number: usize| match **ty {
            TypeTree::Unit => Term::Unit,
            _ => call(writer.sink_function(ty), vec![variable(number)]),
        };
        match &**ty {
            TypeTree::Unit | TypeTree::Bound(_) => variable(0),
            TypeTree::Product(left, right) => {
                let first = consume(self, left, 1);
                let_pair(variable(0), let_one(first, consume(self, right, 2)))
            }
            TypeTree::Sum(left, right) => {
                let first = consume(self, left, 1);
                case(variable(0), first, consume(self, right, 1))
            }
            TypeTree::Recursive(_) => {
                let function = self.sink_function(&unfold(ty));
                call(function, vec![unroll(ty, variable(0))])
            }
        }
    }

    /// A term that breaks a typing rule, or may.
    fn faulty(&mut self, goal: &Type, uses: Uses) -> Term {
        let in_scope = self.scope.len();
        match self.rng.below(7) {
            0 => variable(in_scope + self.rng.below(3)),
            1 => variable(self.rng.below(in_scope)),
            2 => {
                let other = self.some_type();
                self.shortest(&other, uses)
            }
            3 => inl(goal, self.term(goal, uses)),
            4 => roll(goal, self.term(goal, uses)),
            5 => unroll(goal, self.term(goal, uses)),
            _ => smallest_term(goal),
        }
    }
}

fn numbers(uses: Uses) -> impl Iterator<Item = usize> {
    (0..Uses::BITS as usize).filter(move |number| uses & (1 << number) != 0)
}
