//! Programs with steering, changed at one term or a few, so that most of them break a rule somewhere.

use super::writer::steered_draft;
use crate::draft::*;
use crate::rng::Rng;

/// A program with steering, and one to three terms of its first function changed.
pub fn spoilt_draft(rng: &mut Rng) -> Draft {
    let mut draft = steered_draft(rng);
    for _ in 0..rng.between(1, 3) {
        let body = &mut draft.functions[0].body;
        let mut at = rng.below(body.count());
        // Variables are what the rule is about.
        if rng.chance(60) {
            let variables = variables(body);
            at = *rng.pick(&variables);
        }
        change(rng, nth(body, at));
    }
    draft
}

/// Term number `at`, counted as the terms are written, each before its parts.
fn nth(term: &mut Term, at: usize) -> &mut Term {
    let mut behind = at;
    let mut found = term;
    while behind > 0 {
        behind -= 1;
        let mut parts = found.parts_mut().into_iter();
        found = loop {
            let part = parts.next().expect("a number below the count");
            match part.count() {
                count if behind < count => break part,
                count => behind -= count,
            }
        };
    }
    found
}

/// The numbers of the terms that are variables; that of the first term if there are none.
fn variables(term: &Term) -> Vec<usize> {
    fn walk(term: &Term, next: &mut usize, found: &mut Vec<usize>) {
        if matches!(term, Term::Variable(_)) {
            found.push(*next);
        }
        *next += 1;
        term.parts().into_iter().for_each(|part| walk(part, next, found));
    }
    let mut found = Vec::new();
    walk(term, &mut 0, &mut found);
    if found.is_empty() {
        found.push(0);
    }
    found
}

fn change(rng: &mut Rng, term: &mut Term) {
    let taken = std::mem::replace(term, Term::Unit);
    *term = match taken {
        Term::Variable(_) if rng.chance(15) => Term::Unit,
        Term::Variable(number) => other_variable(rng, number),
        Term::Let(bound, body) | Term::LetPair(bound, body) => match rng.below(5) {
            0 => Term::Let(body, bound),
            1 => *body,
            2 => *bound,
            3 => Term::LetPair(bound, body),
            _ => Term::Let(bound, body),
        },
        Term::Call(function, mut terms) if terms.len() > 1 => {
            match rng.below(3) {
                0 => terms.rotate_right(1),
                1 => drop(terms.pop()),
                _ => return *term = let_one(Term::Call(function, terms), variable(rng.between(1, 9))),
            }
            Term::Call(function, terms)
        }
        Term::Pair(left, right) if rng.chance(50) => Term::Pair(right, left),
        Term::Case(scrutinee, left, right) if rng.chance(50) => Term::Case(scrutinee, right, left),
        other if rng.chance(50) => pair(other, variable(rng.below(8))),
        _ => Term::Unit,
    };
}

/// A number nearby.
fn other_variable(rng: &mut Rng, number: u8) -> Term {
    let number = number as usize;
    match rng.below(4) {
        0 => variable(number + 1),
        1 => variable(number.saturating_sub(1)),
        2 => variable(rng.below(number + 1)),
        _ => variable(rng.below(number + 4)),
    }
}
