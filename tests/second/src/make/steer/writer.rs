//! Programs in which dynamic variables steer calls in bound terms (02, F-2), accepted and reversible by construction.
//!
//! A term is given the variables that it has to use, and those that ancilla arguments in it may name: a let's body uses them. Both
//! branches of a case end in an injection of their own, so that first match turns down nothing, and each converter shows what steered
//! it in its result, so that a wrong ancilla is seen.

use super::super::types::random_type;
use crate::draft::*;
use crate::rng::Rng;
use crate::samples::steering::{beside, tagged, unsteered};
use crate::samples::{plus, successor};
use crate::typing::check;

/// Variables by number, one bit each.
type Set = u64;

/// What a term does with the dynamic variables around it: it uses each of `uses` and no others, and may name those of `names`.
#[derive(Clone, Copy)]
struct Task {
    uses: Set,
    names: Set,
}

/// A term and its type.
type Written = (Term, Type);

struct Writer<'a> {
    rng: &'a mut Rng,
    functions: Vec<Function>,
    /// The types of the variables in scope; the first are ancillae.
    scope: Vec<Type>,
    ancillae: usize,
    /// Variables in scope at the innermost ancilla argument, 0 outside of all: below it a variable is named and not used.
    barrier: usize,
    /// Terms that may still branch out.
    budget: isize,
    /// Dynamic variables named so far.
    named: usize,
}

/// Beyond this many variables nothing is bound any more.
const ROOMY_SCOPE: usize = 24;

/// One function, the first, with steering in it, and the converters that it calls.
pub fn steered_draft(rng: &mut Rng) -> Draft {
    loop {
        let ancillae: Vec<Type> = (0..rng.below(3)).map(|_| small_type(rng)).collect();
        let budget = rng.between(3, 16) as isize;
        let placeholder = Function { parameters: vec![], result: unit_type(), body: Term::Unit };
        let mut writer = Writer {
            rng,
            functions: vec![placeholder],
            ancillae: ancillae.len(),
            scope: ancillae,
            barrier: 0,
            budget,
            named: 0,
        };
        writer.main();
        let steers = writer.named > 0 && writer.functions.len() <= 20;
        let draft = Draft { functions: writer.functions };
        // Types shown beside each other may come to too many nodes.
        if steers && check(&draft.bytes()).is_ok() {
            return draft;
        }
    }
}

/// Often unit or 1+1, now and then anything.
fn small_type(rng: &mut Rng) -> Type {
    match rng.below(10) {
        0..=3 => unit_type(),
        4 | 5 => boolean(),
        6..=8 => nat(),
        _ => random_type(rng),
    }
}

fn numbers(set: Set) -> Vec<usize> {
    (0..Set::BITS as usize).filter(|number| set >> number & 1 == 1).collect()
}

impl Writer<'_> {
    fn main(&mut self) {
        let record = self.record();
        let mut parameters = self.scope.clone();
        parameters.push(record.clone());
        self.scope.push(record.clone());
        let dynamic = parameters.len() - 1;
        let none = Task { uses: 0, names: 0 };
        let (body, result) = match &*record {
            // The parameter itself steers.
            _ if self.rng.chance(15) => self.let_term(Task { uses: 1 << dynamic, ..none }),
            TypeTree::Sum(left, right) => self.branches(variable(dynamic), left, right, none),
            _ => self.opened(dynamic, none),
        };
        self.functions[0] = Function { parameters, result, body };
    }

    /// A product of two or three, or a choice between two products.
    fn record(&mut self) -> Type {
        let part = product(&small_type(self.rng), &small_type(self.rng));
        match self.rng.below(5) {
            0 | 1 => part,
            2 | 3 => product(&small_type(self.rng), &part),
            _ => sum(&part, &product(&small_type(self.rng), &small_type(self.rng))),
        }
    }

    /// Takes a product apart; its parts are for the let that follows.
    fn opened(&mut self, number: usize, task: Task) -> Written {
        let TypeTree::Product(first, second) = &*self.scope[number].clone() else { return self.let_term(task) };
        let nested = matches!(**second, TypeTree::Product(..)) && self.scope.len() + 2 <= ROOMY_SCOPE;
        let outer = self.scope.len();
        self.scope.extend([first.clone(), second.clone()]);
        let uses = task.uses | self.asked(outer);
        let (body, ty) = if nested {
            self.opened(outer + 1, Task { uses, ..task })
        } else {
            let uses = uses | self.asked(outer + 1);
            self.let_term(Task { uses, ..task })
        };
        self.scope.truncate(outer);
        (let_pair(variable(number), body), ty)
    }

    /// The use that a new variable asks for; a unit may go without.
    fn asked(&mut self, number: usize) -> Set {
        let spared = *self.scope[number] == TypeTree::Unit && self.rng.chance(25);
        if spared {
            0
        } else {
            1 << number
        }
    }

    fn term(&mut self, task: Task) -> Written {
        self.budget -= 1;
        if self.budget < 0 || self.scope.len() > ROOMY_SCOPE {
            return self.leaf(task);
        }
        match self.rng.below(13) {
            0 => self.leaf(task),
            1 => self.pair(task),
            2..=5 if task.names != 0 => self.steered_call(task),
            2..=8 => self.let_term(task),
            9..=11 => self.case(task),
            _ => self.wrapped(task),
        }
    }

    /// The variables to be used, one beside the other. Where there are none: in an ancilla argument one from outside, else an ancilla
    /// or unit.
    fn leaf(&mut self, task: Task) -> Written {
        let mut used = numbers(task.uses);
        if self.rng.chance(30) {
            used.reverse();
        }
        let one = |writer: &Self, number: usize| (variable(number), writer.scope[number].clone());
        let Some(last) = used.pop() else { return self.constant(task) };
        used.into_iter().rev().fold(one(self, last), |(right, right_type), number| {
            let (left, left_type) = one(self, number);
            (pair(left, right), product(&left_type, &right_type))
        })
    }

    fn constant(&mut self, task: Task) -> Written {
        let outside = numbers(task.names & ((1 << self.barrier) - 1));
        if !outside.is_empty() && self.rng.chance(70) {
            let number = *self.rng.pick(&outside);
            self.named += 1;
            return (variable(number), self.scope[number].clone());
        }
        if self.ancillae > 0 && self.rng.chance(40) {
            let number = self.rng.below(self.ancillae);
            return (variable(number), self.scope[number].clone());
        }
        (Term::Unit, unit_type())
    }

    fn pair(&mut self, task: Task) -> Written {
        let (first, second) = self.split(task.uses);
        let (left, left_type) = self.term(Task { uses: first, ..task });
        let (right, right_type) = self.term(Task { uses: second, ..task });
        (pair(left, right), product(&left_type, &right_type))
    }

    /// Two sets whose union is the given one; they may overlap.
    fn split(&mut self, uses: Set) -> (Set, Set) {
        let (mut first, mut second) = (0, 0);
        for number in numbers(uses) {
            let side = self.rng.below(8);
            first |= if side <= 3 { 1 << number } else { 0 };
            second |= if side >= 3 { 1 << number } else { 0 };
        }
        (first, second)
    }

    /// A call whose ancilla arguments name variables that some body uses.
    fn steered_call(&mut self, task: Task) -> Written {
        let count = self.rng.between(1, 2);
        let arguments: Vec<Written> = (0..count).map(|_| self.argument(task.names)).collect();
        let dynamic = self.term(task);
        self.converted(arguments, dynamic)
    }

    /// A converter's call: what it is steered by stands beside the value in its result, but for plus and a converter that is not
    /// steered by what it is given.
    fn converted(&mut self, arguments: Vec<Written>, (dynamic, ty): Written) -> Written {
        let types: Vec<Type> = arguments.iter().map(|(_, ty)| ty.clone()).collect();
        let function = match self.rng.below(6) {
            0 => self.function(tagged(&types, &ty)),
            1 => self.function(unsteered(&types, &ty)),
            _ if types == [nat()] && ty == nat() => self.function(plus(self.functions.len())),
            _ => self.function(beside(&types, &ty)),
        };
        let terms = arguments.into_iter().map(|(term, _)| term).chain([dynamic]).collect();
        (call(function, terms), self.functions[function].result.clone())
    }

    fn function(&mut self, wanted: Function) -> usize {
        self.functions.push(wanted);
        self.functions.len() - 1
    }

    /// An ancilla argument. Every variable around it is named and not used; variables bound in it are used, and steer in their turn.
    fn argument(&mut self, names: Set) -> Written {
        let outer = std::mem::replace(&mut self.barrier, self.scope.len());
        let number = *self.rng.pick(&numbers(names));
        let named = (variable(number), self.scope[number].clone());
        self.named += 1;
        let written = match self.rng.below(10) {
            0 | 1 => {
                let inner = self.argument(names);
                self.converted(vec![inner], named)
            }
            2 | 3 => self.let_in_argument(named, names),
            4 => {
                let (other, other_type) = self.term(Task { uses: 0, names });
                (pair(named.0, other), product(&named.1, &other_type))
            }
            5 => self.chosen(named),
            _ => named,
        };
        self.barrier = outer;
        written
    }

    fn let_in_argument(&mut self, (bound, ty): Written, names: Set) -> Written {
        let outer = self.scope.len();
        if outer > ROOMY_SCOPE {
            return (bound, ty);
        }
        self.scope.push(ty);
        let (body, ty) = self.let_term(Task { uses: 1 << outer, names });
        self.scope.truncate(outer);
        (let_one(bound, body), ty)
    }

    /// A 1+1 by a case, which seldom is one that first match turns down for inr; a Nat's successor.
    fn chosen(&mut self, (term, ty): Written) -> Written {
        let outer = self.scope.len();
        if ty == boolean() && outer <= ROOMY_SCOPE {
            let injected = if self.rng.chance(10) { inl } else { inr };
            let (left, right) = (inl(&ty, variable(outer)), injected(&ty, variable(outer)));
            return (case(term, left, right), ty);
        }
        if ty == nat() {
            return (successor(term), ty);
        }
        (term, ty)
    }

    /// A let whose body uses what its bound term may name. Lets inside the bound term may do the same, or leave it to this one.
    fn let_term(&mut self, task: Task) -> Written {
        if self.scope.len() > ROOMY_SCOPE {
            return self.leaf(task);
        }
        let (bound_uses, rest) = self.split(task.uses);
        let in_bound = Task { uses: bound_uses, names: task.names | rest };
        let (bound, ty) = if in_bound.names != 0 && self.rng.chance(60) {
            self.steered_call(in_bound)
        } else {
            self.term(in_bound)
        };
        let outer = self.scope.len();
        let binder = self.bind(&ty);
        let new = (outer..self.scope.len()).fold(0, |uses, number| uses | self.asked(number));
        // A unit in the body is best met by one branch alone.
        let by_case = self.units(rest) != 0 && outer < ROOMY_SCOPE && self.rng.chance(60);
        let (body, result) = if by_case {
            self.case_on(new, Task { uses: rest, ..task })
        } else {
            self.term(Task { uses: rest | new, ..task })
        };
        self.scope.truncate(outer);
        (binder(bound, body), result)
    }

    /// Brings what a let binds into scope, of a product now and then its parts, and answers which let it is.
    fn bind(&mut self, ty: &Type) -> fn(Term, Term) -> Term {
        match &**ty {
            TypeTree::Product(first, second) if self.rng.chance(50) => {
                self.scope.extend([first.clone(), second.clone()]);
                let_pair
            }
            _ => {
                self.scope.push(ty.clone());
                let_one
            }
        }
    }

    fn units(&self, uses: Set) -> Set {
        let is_unit = |number: &usize| *self.scope[*number] == TypeTree::Unit;
        numbers(uses).into_iter().filter(is_unit).fold(0, |units, number| units | 1 << number)
    }

    fn case(&mut self, task: Task) -> Written {
        if self.scope.len() > ROOMY_SCOPE {
            return self.leaf(task);
        }
        let (decided, rest) = self.split(task.uses);
        self.case_on(decided, Task { uses: rest, ..task })
    }

    /// A case that decides by the given variables, with branches for the rest.
    fn case_on(&mut self, decided: Set, task: Task) -> Written {
        let (term, ty) = self.term(Task { uses: decided, ..task });
        if let TypeTree::Sum(left, right) = &*ty {
            return self.branches(term, left, right, task);
        }
        if let TypeTree::Sum(left, right) = &*unfold(&ty) {
            return self.branches(unroll(&ty, term), left, right, task);
        }
        let arguments = if task.names != 0 { vec![self.argument(task.names)] } else { vec![] };
        let types: Vec<Type> = arguments.iter().map(|(_, ty)| ty.clone()).collect();
        let function = self.function(tagged(&types, &ty));
        let TypeTree::Sum(left, right) = &*self.functions[function].result.clone() else { return (term, ty) };
        let terms = arguments.into_iter().map(|(term, _)| term).chain([term]).collect();
        self.branches(call(function, terms), left, right, task)
    }

    /// Two branches, each under an injection of its own. A unit may be used by one alone: the other leaves it unmet.
    fn branches(&mut self, scrutinee: Term, left: &Type, right: &Type, task: Task) -> Written {
        let (mut first, mut second) = (task.uses, task.uses);
        for number in numbers(self.units(task.uses)) {
            match self.rng.below(4) {
                0 | 1 => first &= !(1 << number),
                2 => second &= !(1 << number),
                _ => {}
            }
        }
        let (first, first_type) = self.branch(left, Task { uses: first, ..task });
        let (second, second_type) = self.branch(right, Task { uses: second, ..task });
        let result = sum(&first_type, &second_type);
        (case(scrutinee, inl(&result, first), inr(&result, second)), result)
    }

    fn branch(&mut self, bound: &Type, task: Task) -> Written {
        let outer = self.scope.len();
        self.scope.push(bound.clone());
        let written = if matches!(**bound, TypeTree::Product(..)) && self.rng.chance(70) {
            self.opened(outer, task)
        } else {
            let uses = task.uses | self.asked(outer);
            self.term(Task { uses, ..task })
        };
        self.scope.truncate(outer);
        written
    }

    fn wrapped(&mut self, task: Task) -> Written {
        let (term, ty) = self.term(task);
        let other = small_type(self.rng);
        match self.rng.below(3) {
            0 => (inl(&sum(&ty, &other), term), sum(&ty, &other)),
            1 => (inr(&sum(&other, &ty), term), sum(&other, &ty)),
            _ => (roll(&recursive(&ty), term), recursive(&ty)),
        }
    }
}
