//! Refusal 8 at a dynamic variable that an ancilla argument names (document 02, F-2): which lets could have brought the variable back, and what
//! is told of them. That none does is the engine's finding.

use crate::core::program::Found;
use crate::core::term::{Term, TermKind};
use crate::text::{Mistake, Source};

const WHAT: &str = "a dynamic variable stands in an ancilla argument";
const THE_CALL: &str = "this is the call that a let must bind: it has the variable in an ancilla argument too";
const AS_IN: &str = "as in let y = f k n in (k, y), or take it as an ancilla parameter";

/// What stands between a variable's binder and the place where it is named.
#[derive(Default)]
struct Between<'a> {
    /// The calls that have the place in an ancilla argument, the nearest first.
    calls: Vec<&'a Term>,
    /// The lets that have the outermost of these calls in their bound term, the nearest first. Any of them would do.
    lets: Vec<&'a Term>,
}

impl<'a> Between<'a> {
    fn new(found: &Found<'a>, variable: usize) -> Between<'a> {
        let mut between = Between::default();
        let mut variables = found.variables;
        for &(term, place) in &found.around {
            variables -= term.bound_before(place);
            if variables <= variable {
                break;
            }
            if term.is_ancilla(place) {
                between.calls.push(term);
                // Lets inside an ancilla argument give back nothing from outside it.
                between.lets.clear();
            } else if place == 0 && matches!(term.kind, TermKind::Let(..) | TermKind::LetPair(..)) {
                between.lets.push(term);
            }
        }
        between
    }
}

/// What is wrong with naming the variable here, and what to do; none if the term is no variable.
pub fn misnamed(found: &Found, source: &Source) -> Option<Mistake> {
    let TermKind::Variable(variable) = found.term.kind else { return None };
    let Between { calls, lets } = Between::new(found, variable);
    let call = match calls.len() {
        0 | 1 => "the call",
        _ => "the outermost call around it",
    };
    let mistake = |what: String| Mistake::new(found.term.span, format!("{WHAT}, and {what}"));
    Some(match (&lets[..], &calls[..]) {
        ([nearest, further @ ..], _) => mistake(format!("no let that binds {call} uses it in its body"))
            .note(nearest.span, unhelpful(nearest, further.len(), source))
            .help(format!("use it in that body, {AS_IN}")),
        ([], [_, .., outermost]) => {
            unbound(mistake(format!("no let binds {call}"))).note(outermost.span, THE_CALL)
        }
        ([], _) => unbound(mistake(format!("no let binds {call}"))),
    })
}

fn unbound(mistake: Mistake) -> Mistake {
    mistake.help(format!("bind the call by a let whose body uses the variable, {AS_IN}"))
}

/// A case over tuples begins with a let pair, and is a case to its reader.
fn unhelpful(nearest: &Term, further: usize, source: &Source) -> String {
    let this = match source.slice(nearest.span).starts_with("case") {
        true => "no arm of this case uses it",
        false => "the body of this let does not use it",
    };
    match further {
        0 => this.to_string(),
        _ => format!("{this}, nor does the body of a let around it"),
    }
}
