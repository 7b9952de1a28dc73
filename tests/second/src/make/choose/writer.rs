//! Programs with cases that choose by an ancilla (02, F-3), accepted and reversible by construction.
//!
//! A value is rebuilt in one of many ways that keep its type. A choice has one way in each branch, beside what its branch variable
//! holds, so that most often the left branch may yield what the right one gives: first match would turn it down.

use super::super::types::{random_type, smallest, smallest_term};
use crate::draft::*;
use crate::rng::Rng;
use crate::samples::choosing::{flipped, given_ancilla};
use crate::samples::steering::beside;
use crate::samples::{not, plus, successor};
use crate::typing::check;

/// A term and its type.
type Written = (Term, Type);

struct Writer<'a> {
    rng: &'a mut Rng,
    functions: Vec<Function>,
    /// The types of the variables in scope; the first are ancillae, and the very first is a 1+1.
    scope: Vec<Type>,
    ancillae: usize,
    /// Terms that may still branch out.
    budget: isize,
}

/// Beyond this many variables nothing is bound any more.
const ROOMY_SCOPE: usize = 24;

/// Beyond this many functions no further one is written.
const ROOMY_PROGRAM: usize = 16;

/// What stands beside a rebuilt value in both branches of a choice, and how.
#[derive(Clone, Copy)]
enum Beside {
    Nothing,
    First,
    Second,
    Twice,
}

/// One function, the first, with choices in it, and those that it calls.
pub fn choosing_draft(rng: &mut Rng) -> Draft {
    loop {
        let placeholder = Function { parameters: vec![], result: unit_type(), body: Term::Unit };
        let budget = rng.between(4, 18) as isize;
        let mut writer = Writer { rng, functions: vec![placeholder], scope: vec![], ancillae: 0, budget };
        let ty = writer.record();
        writer.functions[0] = writer.function(&ty, Writer::converted);
        let draft = Draft { functions: writer.functions };
        // Now and then no way that is drawn has a choice, and types beside each other may come to too many nodes.
        if check(&draft.bytes()).is_ok_and(|checked| checked.program.by_ancilla.contains(&true)) {
            return draft;
        }
    }
}

impl Writer<'_> {
    fn record(&mut self) -> Type {
        match self.rng.below(8) {
            0 | 1 => boolean(),
            2 => nat(),
            3 => product(&boolean(), &boolean()),
            4 => product(&boolean(), &nat()),
            5 => sum(&nat(), &boolean()),
            6 => list(&boolean()),
            _ => random_type(self.rng),
        }
    }

    fn ancilla_type(&mut self) -> Type {
        match self.rng.below(8) {
            0 | 1 => boolean(),
            2 | 3 => nat(),
            4 => sum(&boolean(), &boolean()),
            5 => sum(&unit_type(), &random_type(self.rng)),
            6 => list(&boolean()),
            _ => sum(&random_type(self.rng), &nat()),
        }
    }

    /// A function of its own ancillae, whose dynamic parameter is handed to what writes the body.
    fn function(&mut self, ty: &Type, body: fn(&mut Self, usize) -> Written) -> Function {
        let ancillae = self.rng.between(1, 3);
        let mut parameters = vec![boolean()];
        parameters.extend((1..ancillae).map(|_| self.ancilla_type()));
        parameters.push(ty.clone());
        let around = (std::mem::replace(&mut self.scope, parameters.clone()), self.ancillae);
        self.ancillae = ancillae;
        let (body, result) = body(self, ancillae);
        (self.scope, self.ancillae) = around;
        Function { parameters, result, body }
    }

    fn called(&mut self, function: Function) -> usize {
        self.functions.push(function);
        self.functions.len() - 1
    }

    fn spent(&mut self) -> bool {
        self.budget -= 1;
        self.budget < 0 || self.scope.len() > ROOMY_SCOPE
    }

    /// A term under new variables.
    fn under<T>(&mut self, types: &[Type], write: impl FnOnce(&mut Self, usize) -> T) -> T {
        let outer = self.scope.len();
        self.scope.extend_from_slice(types);
        let written = write(self, outer);
        self.scope.truncate(outer);
        written
    }

    /// A variable's value, rebuilt or beside others.
    fn converted(&mut self, x: usize) -> Written {
        if self.spent() {
            return self.choice(x);
        }
        let ty = self.scope[x].clone();
        match self.rng.below(12) {
            0..=4 => self.choice(x),
            5 | 6 => {
                let (bound, bound_type) = self.choice(x);
                let (body, result) = self.under(&[bound_type], Self::converted);
                (let_one(bound, body), result)
            }
            7 => self.matched_by_unit(x),
            8 => self.matched_by_naming(x),
            9 => self.beside_argument(x),
            10 => self.steered(x),
            _ => (self.rebuilt(x), ty),
        }
    }

    /// A case that chooses by ancillae, with a way to rebuild the value in each branch.
    fn choice(&mut self, x: usize) -> Written {
        let (scrutinee, sides) = self.decided();
        let both_units = sides.iter().all(|side| **side == TypeTree::Unit);
        let how = match self.rng.below(6) {
            0..=3 if both_units => Beside::Nothing,
            0 | 1 => Beside::First,
            2 | 3 => Beside::Second,
            _ => Beside::Twice,
        };
        let shown = Shown::of(&sides);
        let [left, right] = [0, 1].map(|side| {
            self.under(&sides[side..=side], |writer, bound| {
                placed(how, shown.term(&sides[side], bound, side), writer.rebuilt(x))
            })
        });
        (case(scrutinee, left, right), placed_type(how, &shown.ty, &self.scope[x]))
    }

    /// A term over ancillae alone whose type is a sum, and the sum's sides.
    fn decided(&mut self) -> (Term, [Type; 2]) {
        let number = self.rng.below(self.ancillae);
        let ty = self.scope[number].clone();
        let natural = if self.rng.chance(30) { self.natural() } else { variable(number) };
        match (&*ty, &*unfold(&ty)) {
            _ if self.rng.chance(35) => (self.bit(), [unit_type(), unit_type()]),
            (TypeTree::Sum(left, right), _) => (variable(number), [left.clone(), right.clone()]),
            _ if ty == nat() => (unroll(&nat(), natural), [unit_type(), nat()]),
            (_, TypeTree::Sum(left, right)) => (unroll(&ty, variable(number)), [left.clone(), right.clone()]),
            _ => (self.bit(), [unit_type(), unit_type()]),
        }
    }

    /// A Nat over ancillae alone.
    fn natural(&mut self) -> Term {
        let ancilla = self.ancilla_of(&nat());
        match self.rng.below(4) {
            0 => successor(ancilla),
            1 if self.functions.len() < ROOMY_PROGRAM => {
                let terms = vec![ancilla, self.ancilla_of(&nat())];
                call(self.plus(), terms)
            }
            _ => ancilla,
        }
    }

    fn plus(&mut self) -> usize {
        let itself = self.functions.len();
        self.called(plus(itself))
    }

    /// An ancilla of the type, or else the type's smallest value.
    fn ancilla_of(&mut self, ty: &Type) -> Term {
        let fitting: Vec<usize> = (0..self.ancillae).filter(|&number| self.scope[number] == *ty).collect();
        if fitting.is_empty() {
            smallest_term(ty)
        } else {
            variable(*self.rng.pick(&fitting))
        }
    }

    /// A 1+1 over ancillae alone: an ancilla, a constant, one flipped, by a call, by a choice, or by a case on a variable that is bound
    /// around it, for which first match holds.
    fn bit(&mut self) -> Term {
        if self.spent() {
            return self.ancilla_of(&boolean());
        }
        let in_scope = self.scope.len();
        let room = self.functions.len() < ROOMY_PROGRAM;
        match self.rng.below(12) {
            0 => inl(&boolean(), Term::Unit),
            1 => inr(&boolean(), Term::Unit),
            2 => flipped(0, in_scope),
            3 if room => {
                let terms = vec![self.bit()];
                call(self.called(not()), terms)
            }
            4 if room => {
                let terms = vec![self.bit(), Term::Unit];
                call(self.called(given_ancilla()), terms)
            }
            5 => let_one(self.bit(), flipped(in_scope, in_scope + 1)),
            6 => {
                // First match turns down inr, either way.
                let same = || inl(&boolean(), variable(in_scope + 1));
                let_one(self.ancilla_of(&boolean()), case(variable(in_scope), same(), same()))
            }
            7 | 8 => {
                let scrutinee = self.bit();
                let [left, right] = [0, 1].map(|_| self.under(&[unit_type()], |writer, _| writer.bit()));
                case(scrutinee, left, right)
            }
            _ => self.ancilla_of(&boolean()),
        }
    }

    /// One of the ways in which a variable's value is carried over to another of its type.
    fn rebuilt(&mut self, x: usize) -> Term {
        if self.spent() {
            return variable(x);
        }
        let ty = self.scope[x].clone();
        match self.rng.below(10) {
            0..=2 => self.chosen(x),
            3 => {
                let bound = self.rebuilt(x);
                let_one(bound, self.under(&[ty], Self::rebuilt))
            }
            4 if self.functions.len() < ROOMY_PROGRAM => self.rebuilt_by_call(x),
            5 => variable(x),
            _ => self.rebuilt_by_parts(x),
        }
    }

    /// A choice between two ways; at times the branches use the unit that they are given.
    fn chosen(&mut self, x: usize) -> Term {
        let scrutinee = self.bit();
        let [left, right] = [0, 1].map(|_| {
            self.under(&[unit_type()], |writer, unit| {
                if writer.rng.chance(20) {
                    let_one(variable(unit), writer.under(&[unit_type()], |writer, _| writer.rebuilt(x)))
                } else {
                    writer.rebuilt(x)
                }
            })
        });
        case(scrutinee, left, right)
    }

    fn rebuilt_by_call(&mut self, x: usize) -> Term {
        let ty = self.scope[x].clone();
        let function = self.function(&ty, |writer, x| (writer.rebuilt(x), writer.scope[x].clone()));
        let ancillae = &function.parameters[..function.parameters.len() - 1];
        let mut terms: Vec<Term> = ancillae.iter().map(|ty| self.argument(ty)).collect();
        terms.push(variable(x));
        call(self.called(function), terms)
    }

    /// An ancilla argument of the type.
    fn argument(&mut self, ty: &Type) -> Term {
        if *ty == boolean() {
            self.bit()
        } else {
            self.ancilla_of(ty)
        }
    }

    /// By the value's parts, which are rebuilt in their turn, and exchanged where their types allow it.
    fn rebuilt_by_parts(&mut self, x: usize) -> Term {
        let ty = self.scope[x].clone();
        let exchanged = self.rng.chance(50);
        match &*ty {
            TypeTree::Product(first, second) => {
                let parts = [first.clone(), second.clone()];
                let body = self.under(&parts, |writer, at| {
                    let [one, other] = [at, at + 1].map(|part| writer.rebuilt(part));
                    if exchanged && first == second {
                        pair(other, one)
                    } else {
                        pair(one, other)
                    }
                });
                let_pair(variable(x), body)
            }
            TypeTree::Sum(left, right) => {
                let [one, other] = [left, right].map(|side| self.under(std::slice::from_ref(side), Self::rebuilt));
                if exchanged && left == right {
                    case(variable(x), inr(&ty, one), inl(&ty, other))
                } else {
                    case(variable(x), inl(&ty, one), inr(&ty, other))
                }
            }
            _ if ty == nat() && self.functions.len() < ROOMY_PROGRAM => {
                let terms = vec![self.natural(), variable(x)];
                call(self.plus(), terms)
            }
            _ => variable(x),
        }
    }

    /// Near to a choice: the scrutinee is over ancillae but for a dynamic unit, so that first match holds. Most often the branches are
    /// of two injections, and run.
    fn matched_by_unit(&mut self, x: usize) -> Written {
        let (body, ty) = self.under(&[unit_type()], |writer, unit| {
            let bit = writer.under(&[unit_type()], |writer, _| writer.bit());
            writer.matched(let_one(variable(unit), bit), x)
        });
        (let_one(Term::Unit, body), ty)
    }

    /// Two ways to rebuild the value, most often under injections of their own.
    fn matched(&mut self, scrutinee: Term, x: usize) -> Written {
        let ty = self.scope[x].clone();
        let [left, right] = [0, 1].map(|_| self.under(&[unit_type()], |writer, _| writer.rebuilt(x)));
        if self.rng.chance(15) {
            return (case(scrutinee, left, right), ty);
        }
        let result = sum(&ty, &ty);
        (case(scrutinee, inl(&result, left), inr(&result, right)), result)
    }

    /// Near to a choice: an ancilla argument in the scrutinee names a dynamic variable, which the let around the case helps (F-2).
    fn matched_by_naming(&mut self, x: usize) -> Written {
        let given = self.called(given_ancilla());
        let decided = self.bit();
        let (body, result) = self.under(&[boolean()], |writer, key| {
            let scrutinee = call(given, vec![variable(key), Term::Unit]);
            let (bound, ty) = writer.matched(scrutinee, x);
            let y = writer.scope.len();
            (let_one(bound, pair(variable(key), variable(y))), product(&boolean(), &ty))
        });
        (let_one(decided, body), result)
    }

    /// A call that shows its ancilla argument, in which a choice stands.
    fn beside_argument(&mut self, x: usize) -> Written {
        let ty = self.scope[x].clone();
        let terms = vec![self.bit(), variable(x)];
        let function = self.called(beside(&[boolean()], &ty));
        (call(function, terms), self.functions[function].result.clone())
    }

    /// Of a product with a 1+1 before it the one part steers how the other is rebuilt (F-2): in the call it is an ancilla, and chooses.
    fn steered(&mut self, x: usize) -> Written {
        let ty = self.scope[x].clone();
        let TypeTree::Product(first, second) = &*ty else { return self.choice(x) };
        if *first != boolean() {
            return self.choice(x);
        }
        let function = self.function(second, |writer, x| (writer.chosen(x), writer.scope[x].clone()));
        let key = self.scope.len();
        let others = &function.parameters[1..function.parameters.len() - 1];
        let mut terms = vec![variable(key)];
        terms.extend(others.iter().map(|ty| self.argument_under(ty)));
        terms.push(variable(key + 1));
        let steered = call(self.called(function), terms);
        (let_pair(variable(x), let_one(steered, pair(variable(key), variable(key + 2)))), ty)
    }

    /// An ancilla argument where two more variables are in scope.
    fn argument_under(&mut self, ty: &Type) -> Term {
        self.under(&[unit_type(), unit_type()], |writer, _| writer.argument(ty))
    }
}

/// What both branches show of their variables: where one is a unit, its branch shows the other side's smallest value.
struct Shown {
    ty: Type,
    /// Sides that have nothing in common are shown by injections.
    injected: bool,
}

impl Shown {
    fn of([left, right]: &[Type; 2]) -> Shown {
        let plain = |ty: &Type| Shown { ty: ty.clone(), injected: false };
        match (&**left, &**right) {
            _ if left == right => plain(left),
            (TypeTree::Unit, _) if smallest(right).is_some() => plain(right),
            (_, TypeTree::Unit) if smallest(left).is_some() => plain(left),
            _ => Shown { ty: sum(left, right), injected: true },
        }
    }

    fn term(&self, own: &Type, bound: usize, side: usize) -> Term {
        match (self.injected, side) {
            (true, 0) => inl(&self.ty, variable(bound)),
            (true, _) => inr(&self.ty, variable(bound)),
            (false, _) if *own == self.ty => variable(bound),
            (false, _) => smallest_term(&self.ty),
        }
    }
}

fn placed(how: Beside, shown: Term, rebuilt: Term) -> Term {
    match how {
        Beside::Nothing => rebuilt,
        Beside::First => pair(shown, rebuilt),
        Beside::Second => pair(rebuilt, shown),
        Beside::Twice => pair(shown.clone(), pair(shown, rebuilt)),
    }
}

fn placed_type(how: Beside, shown: &Type, ty: &Type) -> Type {
    match how {
        Beside::Nothing => ty.clone(),
        Beside::First => product(shown, ty),
        Beside::Second => product(ty, shown),
        Beside::Twice => product(shown, &product(shown, ty)),
    }
}
