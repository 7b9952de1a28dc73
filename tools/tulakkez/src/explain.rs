//! The engine's refusals at their places in the text: what is wrong there, and what to do. The engine has decided; here its words are made
//! plainer with what the text says.

use crate::choosing::{disagreement, first_match};
use crate::core::program::Found;
use crate::core::term::{Function, Term, TermKind};
use crate::core::types::{TypeId, View};
use crate::core::{EntryKind, Layout, Program};
use crate::steering::misnamed;
use crate::text::{Mistake, Source, Span};
use corefun::Refusal;

/// A program has at most so many bytes.
const PROGRAM_BYTES: usize = 32_768;

/// What to do about each refusal, from 1 on.
const HELP: [&str; 20] = [
    "lend 32,768 bytes, and 32 more for each step of the fuel",
    "tags 1 to 3 in this order, a kind that there is, a length that fits it",
    "a program has at most 256 types, 1,024 terms, 64 functions and 32,768 bytes; a function has 1 to 8 parameters",
    "parts stand before wholes, and each term is used just once",
    "a type that is large written out is made smaller by a recursive type",
    "make the two types the same",
    "at most 32 variables are in scope; put a part of this into a function of its own",
    "a dynamic variable is used, unless its type is 1; both branches of a case use the same ones; an ancilla argument names one only where a let binds the call and its body uses the variable",
    "functions count from 0",
    "a value has at most 1,024 bytes, and so have all ancillae together; there is a value for each parameter",
    "forward a value is of the last parameter's type, backward of the result's",
    "give more fuel; where 65,535 are too few, split the conversion",
    "fewer terms around the calls, or shorter records",
    "the record is too long in the other form, or on the way to it",
    "there would be no way back: let the arms of this case begin with different constructors, or let it choose by ancillae alone",
    "the value did not come from this function with these ancillae; no fuel changes that",
    "lend 1,024 bytes for a value, 66,112 for the entries of a journal",
    "the bytes are not a journal that an open left and that calls alone have written since",
    "the record is the one that the journal was opened with",
    "open a new journal with the held record once the way back is no longer wanted, or a longer one (open --length)",
];

pub fn help(number: u8) -> &'static str {
    HELP.get(usize::from(number).wrapping_sub(1)).copied().unwrap_or("")
}

/// The refusal at its place in the text; none if it has no place there.
pub fn explain(program: &mut Program, source: &Source, layout: &Layout, refusal: Refusal) -> Option<Mistake> {
    let over = layout.bytes.len() > PROGRAM_BYTES;
    let entry = match (refusal, refusal.offset(), refusal.term()) {
        (Refusal::Count(_), ..) if over => layout.holding(PROGRAM_BYTES)?,
        (_, Some(offset), _) => layout.at_offset(offset as usize)?,
        (_, _, Some(term)) => layout.term(term as usize)?,
        _ => return None,
    };
    let known = program.clone();
    let found = (entry.kind == EntryKind::Term).then(|| known.term(entry.number)).flatten();
    let function = (entry.kind == EntryKind::Function).then(|| known.functions.get(entry.number)).flatten();
    let mut explainer = Explainer { program };
    let told = match (refusal, &found, function) {
        (Refusal::Count(_), ..) => Some((entry.span, too_many(over, entry.kind, layout, function))),
        (Refusal::Mismatch(_), Some(found), _) => explainer.types_differ(found.term),
        (Refusal::Mismatch(_), _, Some(function)) => explainer.result_differs(function),
        (Refusal::Use(_), Some(found), _) => explainer.misused(found),
        (Refusal::Use(_), _, Some(function)) => Some(parameter_unused(function)),
        (_, Some(found), _) => within(refusal, &found.function.name).map(|what| (entry.span, what)),
        _ => None,
    };
    let mistake = found.and_then(|found| with_reason(refusal, &found, source)).unwrap_or_else(|| {
        let (span, what) = told.unwrap_or((entry.span, refusal.meaning().to_string()));
        Mistake::new(span, what)
    });
    let what = format!("refused {}: {}", refusal.number(), mistake.what);
    let helped = mistake.help.clone().unwrap_or_else(|| help(refusal.number()).to_string());
    Some(Mistake { what, ..mistake }.help(helped))
}

/// What is told of a term by what stands around it.
fn with_reason(refusal: Refusal, found: &Found, source: &Source) -> Option<Mistake> {
    match refusal {
        Refusal::Use(_) => misnamed(found, source),
        Refusal::FirstMatch(_) => first_match(found),
        Refusal::NoInput(_) => Some(disagreement(found)),
        _ => None,
    }
}

/// What is told of a term by the function that holds it.
fn within(refusal: Refusal, function: &str) -> Option<String> {
    match refusal {
        Refusal::Scope(_) => Some(format!("over 32 variables are in scope in {function}")),
        Refusal::Fuel(_) => Some(format!("the fuel is spent, in {function}")),
        Refusal::Height(_) => Some(format!("the height passes 1,024, in {function}")),
        Refusal::Size(_) => Some("this value is over 1,024 bytes".to_string()),
        _ => None,
    }
}

type Told = (Span, String);

fn too_many(over: bool, kind: EntryKind, layout: &Layout, function: Option<&Function>) -> String {
    if over {
        return format!("the program has {} bytes, and at most 32,768 are taken", layout.bytes.len());
    }
    match (kind, function.map(|function| function.parameters.len())) {
        (EntryKind::Type, _) => "from here on there are over 256 types".to_string(),
        (EntryKind::Term, _) => "from here on there are over 1,024 terms".to_string(),
        (EntryKind::Function, Some(0)) => "a function has at least one parameter".to_string(),
        (EntryKind::Function, Some(count)) if count > 8 => format!("{count} parameters are too many"),
        (EntryKind::Function, _) => "from here on there are over 64 functions".to_string(),
    }
}

fn parameter_unused(function: &Function) -> Told {
    let name = function.dynamic().map_or("", |parameter| parameter.name.as_str());
    (function.span, format!("{} does not use its dynamic parameter {name}", function.name))
}

struct Explainer<'a> {
    program: &'a mut Program,
}

impl Explainer<'_> {
    fn told(&self, ty: TypeId) -> String {
        self.program.type_text(ty)
    }

    /// A part whose type is not the one that is wanted.
    fn differs(&mut self, part: &Term, want: TypeId) -> Option<Told> {
        let found = part.ty?;
        if self.program.types.equal(found, want) {
            return None;
        }
        let folded = if self.unfolds(found, want) {
            ": unroll it"
        } else if self.unfolds(want, found) {
            ": roll it"
        } else {
            ""
        };
        Some((part.span, format!("this is {}, and {} is wanted{folded}", self.told(found), self.told(want))))
    }

    /// Is the one type recursive, and the other its unfolding?
    fn unfolds(&mut self, folded: TypeId, unfolded: TypeId) -> bool {
        matches!(self.program.types.view(folded), View::Fold(inner) if self.program.types.equal(inner, unfolded))
    }

    fn result_differs(&mut self, function: &Function) -> Option<Told> {
        self.differs(&function.body, function.result)
    }

    fn types_differ(&mut self, term: &Term) -> Option<Told> {
        match &term.kind {
            TermKind::Inl(ty, part) => match self.program.types.view(*ty) {
                View::Sum(left, _) => self.differs(part, left),
                _ => Some((term.span, format!("inl needs a sum type, and {} is none", self.told(*ty)))),
            },
            TermKind::Inr(ty, part) => match self.program.types.view(*ty) {
                View::Sum(_, right) => self.differs(part, right),
                _ => Some((term.span, format!("inr needs a sum type, and {} is none", self.told(*ty)))),
            },
            TermKind::Roll(ty, part) => match self.program.types.view(*ty) {
                View::Fold(unfolded) => self.differs(part, unfolded),
                _ => Some((term.span, format!("roll needs a recursive type, and {} is none", self.told(*ty)))),
            },
            TermKind::Unroll(ty, part) => match self.program.types.view(*ty) {
                View::Fold(_) => self.differs(part, *ty),
                _ => Some((term.span, format!("unroll needs a recursive type, and {} is none", self.told(*ty)))),
            },
            TermKind::LetPair(bound, _) => {
                let found = bound.ty.map_or("this".to_string(), |ty| self.told(ty));
                Some((bound.span, format!("{found} is no product")))
            }
            TermKind::Case(scrutinee, left, right) => self.case_differs(scrutinee, left, right),
            TermKind::Call(function, terms) => self.call_differs(term, *function, terms),
            _ => None,
        }
    }

    fn case_differs(&mut self, scrutinee: &Term, left: &Term, right: &Term) -> Option<Told> {
        if let Some(ty) = scrutinee.ty {
            if !matches!(self.program.types.view(ty), View::Sum(..)) {
                return Some((scrutinee.span, format!("{} is no sum", self.told(ty))));
            }
        }
        self.differs(right, left.ty?)
    }

    fn call_differs(&mut self, call: &Term, function: usize, terms: &[Term]) -> Option<Told> {
        let function = self.program.functions.get(function)?.clone();
        if function.parameters.len() != terms.len() {
            let what = format!("{} takes {} arguments", function.name, function.parameters.len());
            return Some((call.span, format!("{what}, and {} are given", terms.len())));
        }
        terms.iter().zip(&function.parameters).find_map(|(term, parameter)| self.differs(term, parameter.ty))
    }

    /// 8 where a variable is bound: it is not used, or branches use different ones.
    fn misused(&mut self, found: &Found) -> Option<Told> {
        let Found { term, variables, .. } = *found;
        match &term.kind {
            TermKind::Let(_, body) => self.unused(term, 0, body, variables),
            TermKind::LetPair(_, body) => {
                self.unused(term, 0, body, variables).or_else(|| self.unused(term, 1, body, variables + 1))
            }
            TermKind::Case(_, left, right) => self
                .unused(term, 0, left, variables)
                .or_else(|| self.unused(term, 1, right, variables))
                .or_else(|| self.one_sided(found, left, right)),
            _ => None,
        }
    }

    fn unused(&mut self, term: &Term, binder: usize, body: &Term, variable: usize) -> Option<Told> {
        if body.use_of(variable).is_some() || self.is_unit(self.bound_type(term, binder)) {
            return None;
        }
        let binder = term.binders.get(binder)?;
        let what = match &*binder.name {
            "_" => "what is matched here is not used".to_string(),
            name => format!("{name} is not used"),
        };
        Some((binder.span, what))
    }

    fn bound_type(&self, term: &Term, binder: usize) -> Option<TypeId> {
        let bound = term.parts().first().and_then(|bound| bound.ty)?;
        let view = self.program.types.clone().view(bound);
        match (&term.kind, view, binder) {
            (TermKind::Let(..), ..) => Some(bound),
            (_, View::Product(left, _) | View::Sum(left, _), 0) => Some(left),
            (_, View::Product(_, right) | View::Sum(_, right), _) => Some(right),
            _ => None,
        }
    }

    fn is_unit(&mut self, ty: Option<TypeId>) -> bool {
        ty.is_some_and(|ty| self.program.types.view(ty) == View::Unit)
    }

    fn one_sided(&mut self, found: &Found, left: &Term, right: &Term) -> Option<Told> {
        for variable in first_of_its_own(found)..found.variables {
            let (used, span) = match (left.use_of(variable), right.use_of(variable)) {
                (Some(used), None) => (used, right.span),
                (None, Some(used)) => (used, left.span),
                _ => continue,
            };
            // Units may differ.
            if !self.is_unit(used.ty) {
                let name = found.name(variable).unwrap_or("a part of what is matched around it");
                return Some((span, format!("this arm does not use {name}, and another arm does")));
            }
        }
        None
    }
}

/// The first variable that branches here must agree on: those bound outside an ancilla argument around the place are only named (document
/// 02, F-2).
fn first_of_its_own(found: &Found) -> usize {
    let mut variables = found.variables;
    for &(term, place) in &found.around {
        variables -= term.bound_before(place);
        if term.is_ancilla(place) {
            return variables;
        }
    }
    found.function.parameters.len().saturating_sub(1)
}
