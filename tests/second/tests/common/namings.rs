//! The namings of a program, found by a walk of its own along the definition (02, F-2): what stands between each and its binder.

use second::program::{Program, Term};

/// A let or let pair that could help.
#[derive(Clone, Copy, PartialEq, Eq, Debug)]
pub struct Help {
    pub entry: u16,
    pub pair: bool,
    pub body_uses: bool,
}

#[derive(Debug)]
pub struct Naming {
    /// The offset of the variable's field.
    pub place: u32,
    /// Ancilla arguments between binder and naming.
    pub arguments: usize,
    /// Those that could help, the outermost first.
    pub lets: Vec<Help>,
    /// Another let stands inside the argument, with the naming in its bound term.
    pub let_inside: bool,
    /// It is of the function's own parameter.
    pub of_parameter: bool,
    pub bound_in_argument: bool,
    /// The outermost let that helps stands in a branch.
    pub in_branch: bool,
    /// Between that let and the argument stands a case's scrutinee, a call's dynamic term.
    pub in_scrutinee: bool,
    pub in_dynamic_term: bool,
}

impl Naming {
    pub fn helpers(&self) -> impl Iterator<Item = &Help> {
        self.lets.iter().filter(|help| help.body_uses)
    }

    pub fn in_vain(&self) -> bool {
        self.helpers().next().is_none()
    }
}

/// Which part of the term around it a term is.
#[derive(Clone, Copy, PartialEq, Eq)]
enum Part {
    Argument,
    Dynamic,
    Bound { entry: u16, pair: bool, body: u16 },
    Scrutinee,
    Branch,
    Other,
}

struct Walk<'a> {
    program: &'a Program,
    ancillae: usize,
    /// From the function's body inwards: each part, and the variables in scope in it.
    around: Vec<(Part, usize)>,
    found: Vec<Naming>,
}

pub fn namings(program: &Program) -> Vec<Naming> {
    let mut found = Vec::new();
    for function in &program.functions {
        let ancillae = function.ancillae();
        let mut walk = Walk { program, ancillae, around: vec![(Part::Other, ancillae + 1)], found };
        walk.term(function.body);
        found = walk.found;
    }
    found
}

impl Walk<'_> {
    fn part(&mut self, part: Part, bound: usize, term: u16) {
        let in_scope = self.around.last().map_or(0, |(_, in_scope)| *in_scope);
        self.around.push((part, in_scope + bound));
        self.term(term);
        self.around.pop();
    }

    fn term(&mut self, entry: u16) {
        match self.program.terms[entry as usize] {
            Term::Variable(number) => self.variable(entry, number as usize),
            Term::Unit => {}
            Term::Inl(_, a) | Term::Inr(_, a) | Term::Roll(_, a) | Term::Unroll(_, a) => {
                self.part(Part::Other, 0, a)
            }
            Term::Pair(a, b) => [a, b].into_iter().for_each(|part| self.part(Part::Other, 0, part)),
            Term::Let(bound, body) => {
                self.part(Part::Bound { entry, pair: false, body }, 0, bound);
                self.part(Part::Other, 1, body);
            }
            Term::LetPair(bound, body) => {
                self.part(Part::Bound { entry, pair: true, body }, 0, bound);
                self.part(Part::Other, 2, body);
            }
            Term::Case(scrutinee, left, right) => {
                self.part(Part::Scrutinee, 0, scrutinee);
                self.part(Part::Branch, 1, left);
                self.part(Part::Branch, 1, right);
            }
            Term::Call(_, terms) => {
                let Some((&dynamic, ancillae)) = self.program.arguments(terms).split_last() else { return };
                ancillae.iter().for_each(|&term| self.part(Part::Argument, 0, term));
                self.part(Part::Dynamic, 0, dynamic);
            }
        }
    }

    fn variable(&mut self, entry: u16, number: usize) {
        let Some(binder) = self.around.iter().position(|(_, in_scope)| number < *in_scope) else { return };
        let is_argument = |(part, _): &&(Part, usize)| *part == Part::Argument;
        let inside = &self.around[binder + 1..];
        let Some(argument) = inside.iter().position(|around| is_argument(&around)) else { return };
        if number < self.ancillae {
            return;
        }
        let (between, within) = inside.split_at(argument);
        let lets: Vec<Help> = between.iter().filter_map(|(part, _)| self.help(*part, number)).collect();
        let helps = |(part, _): &(Part, usize)| self.help(*part, number).is_some_and(|help| help.body_uses);
        let first = between.iter().position(helps).unwrap_or(between.len());
        let has = |parts: &[(Part, usize)], wanted: Part| parts.iter().any(|(part, _)| *part == wanted);
        let naming = Naming {
            place: self.program.term_offsets[entry as usize],
            arguments: within.iter().filter(is_argument).count(),
            let_inside: within.iter().any(|(part, _)| matches!(part, Part::Bound { .. })),
            of_parameter: number == self.ancillae,
            bound_in_argument: has(&self.around[..=binder], Part::Argument),
            in_branch: has(&self.around[..binder + 1 + first], Part::Branch),
            in_scrutinee: has(&between[first..], Part::Scrutinee),
            in_dynamic_term: has(&between[first..], Part::Dynamic),
            lets,
        };
        self.found.push(naming);
    }

    fn help(&self, part: Part, number: usize) -> Option<Help> {
        let Part::Bound { entry, pair, body } = part else { return None };
        Some(Help { entry, pair, body_uses: uses(self.program, body, number) })
    }
}

/// Whether a term uses a variable from outside it: an occurrence in an ancilla argument is none.
fn uses(program: &Program, entry: u16, number: usize) -> bool {
    let using = |part: u16| uses(program, part, number);
    match program.terms[entry as usize] {
        Term::Variable(variable) => variable as usize == number,
        Term::Unit => false,
        Term::Inl(_, a) | Term::Inr(_, a) | Term::Roll(_, a) | Term::Unroll(_, a) => using(a),
        Term::Pair(a, b) | Term::Let(a, b) | Term::LetPair(a, b) => using(a) || using(b),
        Term::Case(a, b, c) => using(a) || using(b) || using(c),
        Term::Call(_, terms) => program.arguments(terms).last().is_some_and(|&dynamic| using(dynamic)),
    }
}
