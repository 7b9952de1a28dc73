//! Cases that choose by an ancilla (02, F-3): those whose scrutinee names no dynamic variable bound outside it.
//!
//! A use names a variable, and so does an ancilla argument inside the scrutinee (F-2); units are no exception. Variables that are bound
//! inside the scrutinee do not matter, and a scrutinee without any variable names none. Each case is judged by its own scrutinee alone.

use crate::program::{Program, Term};
use crate::uses::Uses;

/// For each term of a well-typed program whether it is such a case. The text alone decides, so it is judged once and not at each step.
pub fn cases_by_ancilla(program: &Program) -> Vec<bool> {
    let mut walk = Walk { program, ancillae: 0, by_ancilla: vec![false; program.terms.len()] };
    for function in &program.functions {
        walk.ancillae = function.ancillae();
        walk.named(function.body, function.parameters.len());
    }
    walk.by_ancilla
}

struct Walk<'a> {
    program: &'a Program,
    /// Of the function at hand: its variables from there on are dynamic.
    ancillae: usize,
    by_ancilla: Vec<bool>,
}

impl Walk<'_> {
    /// The dynamic variables from outside a term that it names, with so many variables in scope.
    fn named(&mut self, entry: u16, in_scope: usize) -> Uses {
        match self.program.terms[entry as usize] {
            Term::Variable(variable) if variable as usize >= self.ancillae => Uses::only(variable as usize),
            Term::Variable(_) | Term::Unit => Uses::default(),
            Term::Inl(_, a) | Term::Inr(_, a) | Term::Roll(_, a) | Term::Unroll(_, a) => self.named(a, in_scope),
            Term::Pair(a, b) => self.named(a, in_scope).with(self.named(b, in_scope)),
            Term::Let(bound, body) => self.named(bound, in_scope).with(self.named_under(1, body, in_scope)),
            Term::LetPair(bound, body) => self.named(bound, in_scope).with(self.named_under(2, body, in_scope)),
            Term::Case(scrutinee, left, right) => {
                let decided = self.named(scrutinee, in_scope);
                self.by_ancilla[entry as usize] = decided == Uses::default();
                let branches = [left, right].map(|branch| self.named_under(1, branch, in_scope));
                decided.with(branches[0]).with(branches[1])
            }
            Term::Call(_, arguments) => {
                let terms = self.program.arguments(arguments);
                terms.iter().fold(Uses::default(), |named, &term| named.with(self.named(term, in_scope)))
            }
        }
    }

    /// The same of a term under so many new variables, which are not from outside.
    fn named_under(&mut self, new: usize, entry: u16, in_scope: usize) -> Uses {
        let named = self.named(entry, in_scope + new);
        (in_scope..in_scope + new).fold(named, Uses::without)
    }
}
