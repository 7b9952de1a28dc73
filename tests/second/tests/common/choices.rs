//! The cases of a program, found by a walk of its own along the definition (02, F-3): a variable's number tells where it is bound.

use second::program::{Program, Term};

#[derive(Debug)]
pub struct Case {
    pub entry: u16,
    /// The scrutinee names no dynamic variable that is bound outside it.
    pub chooses: bool,
    /// It names one in ancilla arguments alone.
    pub named_in_argument: bool,
    /// The scrutinee is an ancilla, or one unrolled; it holds a call, a case, a binder; it has no variable.
    pub on_ancilla: bool,
    pub on_unrolled: bool,
    pub on_call: bool,
    pub on_case: bool,
    pub on_bound: bool,
    pub without_variables: bool,
    /// Where it stands itself.
    pub in_argument: bool,
    pub in_scrutinee: bool,
    pub in_branch: bool,
    /// Each branch uses its variable, the left or the right one more than once.
    pub used_in_both: bool,
    pub used_twice: bool,
}

/// What stands around a term.
#[derive(Clone, Copy, Default)]
struct Around {
    in_scope: usize,
    argument: bool,
    scrutinee: bool,
    branch: bool,
}

struct Walk<'a> {
    program: &'a Program,
    ancillae: usize,
    found: Vec<Case>,
}

pub fn cases(program: &Program) -> Vec<Case> {
    let mut walk = Walk { program, ancillae: 0, found: Vec::new() };
    for function in &program.functions {
        walk.ancillae = function.ancillae();
        walk.term(function.body, Around { in_scope: walk.ancillae + 1, ..Around::default() });
    }
    walk.found
}

impl Walk<'_> {
    fn term(&mut self, entry: u16, around: Around) {
        let under = |new: usize| Around { in_scope: around.in_scope + new, ..around };
        match self.program.terms[entry as usize] {
            Term::Variable(_) | Term::Unit => {}
            Term::Inl(_, a) | Term::Inr(_, a) | Term::Roll(_, a) | Term::Unroll(_, a) => self.term(a, around),
            Term::Pair(a, b) => [a, b].into_iter().for_each(|part| self.term(part, around)),
            Term::Let(bound, body) => {
                self.term(bound, around);
                self.term(body, under(1));
            }
            Term::LetPair(bound, body) => {
                self.term(bound, around);
                self.term(body, under(2));
            }
            Term::Case(scrutinee, left, right) => {
                self.case(entry, [scrutinee, left, right], around);
                self.term(scrutinee, Around { scrutinee: true, ..around });
                [left, right].into_iter().for_each(|side| self.term(side, Around { branch: true, ..under(1) }));
            }
            Term::Call(_, arguments) => {
                let Some((&dynamic, ancillae)) = self.program.arguments(arguments).split_last() else { return };
                ancillae.iter().for_each(|&term| self.term(term, Around { argument: true, ..around }));
                self.term(dynamic, around);
            }
        }
    }

    fn case(&mut self, entry: u16, [scrutinee, left, right]: [u16; 3], around: Around) {
        let variables = self.variables(scrutinee, false);
        let from_outside = |number: usize| (self.ancillae..around.in_scope).contains(&number);
        let outer: Vec<bool> =
            variables.iter().filter(|(number, _)| from_outside(*number)).map(|(_, named)| *named).collect();
        let uses = [left, right].map(|branch| {
            let all = self.variables(branch, false);
            all.iter().filter(|(number, named)| *number == around.in_scope && !named).count()
        });
        let term = |entry: u16| self.program.terms[entry as usize];
        let is_variable = |entry: u16| matches!(term(entry), Term::Variable(_));
        let chooses = outer.is_empty();
        self.found.push(Case {
            entry,
            chooses,
            named_in_argument: !chooses && outer.iter().all(|named| *named),
            on_ancilla: chooses && is_variable(scrutinee),
            on_unrolled: chooses && matches!(term(scrutinee), Term::Unroll(_, part) if is_variable(part)),
            on_call: self.holds(scrutinee, &|term| matches!(term, Term::Call(..))),
            on_case: self.holds(scrutinee, &|term| matches!(term, Term::Case(..))),
            on_bound: self.holds(scrutinee, &|term| matches!(term, Term::Let(..) | Term::LetPair(..))),
            without_variables: variables.is_empty(),
            in_argument: around.argument,
            in_scrutinee: around.scrutinee,
            in_branch: around.branch,
            used_in_both: uses.iter().all(|count| *count > 0),
            used_twice: uses.iter().any(|count| *count > 1),
        });
    }

    /// The variables of a term, each with whether it stands in an ancilla argument.
    fn variables(&self, entry: u16, named: bool) -> Vec<(usize, bool)> {
        let term = self.program.terms[entry as usize];
        if let Term::Variable(number) = term {
            return vec![(number as usize, named)];
        }
        let mut found = Vec::new();
        let parts = self.parts(term);
        for (at, &part) in parts.iter().enumerate() {
            let in_argument = matches!(term, Term::Call(..)) && at + 1 < parts.len();
            found.extend(self.variables(part, named || in_argument));
        }
        found
    }

    fn holds(&self, entry: u16, test: &dyn Fn(Term) -> bool) -> bool {
        let term = self.program.terms[entry as usize];
        test(term) || self.parts(term).iter().any(|&part| self.holds(part, test))
    }

    fn parts(&self, term: Term) -> Vec<u16> {
        let mut parts = Vec::new();
        self.program.all_parts(term, |part| {
            parts.push(part);
            true
        });
        parts
    }
}
