//! Refusals 15 and 16 by what a case chooses by (document 02, F-3). A case whose scrutinee names no dynamic variable from outside chooses by an
//! ancilla: it takes the same arm both ways, and first match is not for it. Told here are the variable that puts a case under first match, and
//! what has chosen the arm that a value does not come from. That a run is refused is the engine's finding.

use crate::core::program::Found;
use crate::core::term::{Term, TermKind};
use crate::text::{Mistake, Span};

const MAY_YIELD: &str =
    "an arm for a later alternative was taken, and its value is one that this arm may yield too";
const NO_WAY_BACK: &str =
    "there would be no way back: let the arms of this case begin with different constructors";
const NO_INPUT: &str = "no input leads to this value";

/// The variables from outside that a term names, used or in ancilla arguments, each with the place where it first does.
fn named(term: &Term, scope: usize) -> Vec<(usize, &Term)> {
    let mut found: Vec<(usize, &Term)> = match term.kind {
        TermKind::Variable(number) if number < scope => vec![(number, term)],
        _ => Vec::new(),
    };
    for inner in term.parts().into_iter().flat_map(|part| named(part, scope)) {
        if found.iter().all(|(number, _)| *number != inner.0) {
            found.push(inner);
        }
    }
    found
}

/// Those of them that are dynamic.
fn dynamic<'a>(found: &Found, term: &'a Term, scope: usize) -> Vec<(usize, &'a Term)> {
    let ancillae = found.function.ancillae().len();
    named(term, scope).into_iter().filter(|(number, _)| *number >= ancillae).collect()
}

/// 15: the branch that was taken is the right one; what is known of its arm is less than of the one that stands in its way. Why first match
/// holds of the case is told with it, if the text shows it.
pub fn first_match(found: &Found) -> Option<Mistake> {
    let TermKind::Case(scrutinee, left, _) = &found.term.kind else { return None };
    let mistake = Mistake::new(left.span, MAY_YIELD);
    let by = dynamic(found, scrutinee, found.variables);
    Some(match by[..] {
        [] => mistake.help(NO_WAY_BACK),
        [(variable, place)] => mistake
            .note(place.span, format!("the case chooses by {}", described(found, variable)))
            .help(format!("{NO_WAY_BACK}{}", freed(found, variable).unwrap_or_default())),
        [(_, place), ..] => {
            let names: Vec<&str> = by.iter().map(|(variable, _)| name(found, *variable)).collect();
            mistake
                .note(place.span, format!("the case chooses by {}, which are dynamic", names.join(" and ")))
                .help(NO_WAY_BACK)
        }
    })
}

fn name<'a>(found: &Found<'a>, variable: usize) -> &'a str {
    found.name(variable).unwrap_or("what is matched here")
}

fn described(found: &Found, variable: usize) -> String {
    let name = name(found, variable);
    match binder(found, variable) {
        None => format!("{name}, the dynamic parameter"),
        Some(binder) if binder.of_ancillae => format!(
            "{name}, which is dynamic like all that a function's body binds, though no dynamic variable went into it"
        ),
        Some(_) => format!("{name}, which is dynamic"),
    }
}

/// How the case could choose by an ancilla, where that is true of the text: by a part of what the function is given, or by what was made of
/// ancillae alone. What a call or another case gives of the record is no ancilla.
fn freed(found: &Found, variable: usize) -> Option<String> {
    let it = found.name(variable).unwrap_or("it");
    let binder = binder(found, variable)?;
    match binder.term.kind {
        TermKind::Let(..) if binder.of_ancillae => {
            Some(format!(", or choose by an ancilla: write what {it} is bound to in place of {it}"))
        }
        _ if binder.of_ancillae || is_part(found, variable) => {
            Some(format!(", or choose by an ancilla: take {it} as an ancilla parameter of its own"))
        }
        _ => None,
    }
}

/// Is the variable a part of a parameter, by let pairs alone?
fn is_part(found: &Found, variable: usize) -> bool {
    let Some((term, _)) = found.bound_by(variable) else { return false };
    match &term.kind {
        TermKind::Let(bound, _) => {
            matches!(bound.kind, TermKind::Variable(whole) if is_part(found, whole))
        }
        TermKind::LetPair(bound, _) => {
            let TermKind::Variable(whole) = bound.kind else { return false };
            whole < found.function.parameters.len() || is_part(found, whole)
        }
        _ => false,
    }
}

/// What binds a variable that is no parameter.
struct Binding<'a> {
    term: &'a Term,
    /// No dynamic variable went into what it binds.
    of_ancillae: bool,
}

fn binder<'a>(found: &Found<'a>, variable: usize) -> Option<Binding<'a>> {
    let (term, scope) = found.bound_by(variable)?;
    let bound = term.parts().into_iter().next()?;
    Some(Binding { term, of_ancillae: dynamic(found, bound, scope).is_empty() })
}

/// 16: what does not agree, and what has chosen the arm that it stands in, if that is an ancilla.
pub fn disagreement(found: &Found) -> Mistake {
    let (what, note) = match found.term.kind {
        TermKind::Variable(variable) => compared(found, variable),
        _ => ("it disagrees here".to_string(), chosen_arm(found)),
    };
    let mistake = Mistake::new(found.term.span, format!("{NO_INPUT}: {what}"));
    match note {
        Some((span, note)) => mistake.note(span, note),
        None => mistake,
    }
}

type Note = Option<(Span, String)>;

/// A variable disagrees if its value was known before: from the start, from what a case chose by, or from another place.
fn compared(found: &Found, variable: usize) -> (String, Note) {
    let name = found.name(variable).unwrap_or("what was matched");
    let known = |how: &str| format!("it is not {name}, which {how}");
    match found.bound_by(variable) {
        Some((case, scope)) if free(found, case, scope) => {
            let note = format!("{name} comes from here, on the way back too: {}", chooser(found, case, scope));
            (known("the case has bound already"), scrutinee(case).map(|by| (by.span, note)))
        }
        None if variable < found.function.ancillae().len() => (known("is an ancilla"), chosen_arm(found)),
        _ => (known("was met before"), chosen_arm(found)),
    }
}

/// The nearest case around that chooses by an ancilla.
fn chosen_arm(found: &Found) -> Note {
    let (case, scope) = found.within().find(|(case, scope)| free(found, case, *scope))?;
    let note = format!("the arm is chosen here, on the way back too: {}", chooser(found, case, scope));
    Some((scrutinee(case)?.span, note))
}

fn scrutinee(term: &Term) -> Option<&Term> {
    match &term.kind {
        TermKind::Case(scrutinee, ..) => Some(scrutinee),
        _ => None,
    }
}

/// Does the term, with so many variables in scope, choose by an ancilla?
fn free(found: &Found, term: &Term, scope: usize) -> bool {
    scrutinee(term).is_some_and(|scrutinee| dynamic(found, scrutinee, scope).is_empty())
}

/// What a case that chooses by an ancilla chooses by.
fn chooser(found: &Found, case: &Term, scope: usize) -> String {
    let by = scrutinee(case).map(|scrutinee| named(scrutinee, scope)).unwrap_or_default();
    match by[..] {
        [] => "the case chooses by no variable".to_string(),
        [(ancilla, _)] => format!("the case chooses by the ancilla {}", name(found, ancilla)),
        _ => "the case chooses by ancillae".to_string(),
    }
}
