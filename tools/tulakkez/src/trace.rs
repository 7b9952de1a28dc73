//! The terms that a run enters, with their values: by the second evaluator, which was written apart from the engine. Its answer is held to the
//! engine's.

use crate::command::Converter;
use crate::core::term::{Term, TermKind};
use crate::core::types::TypeId;
use crate::engine::{Direction, Run};
use crate::text::Source;
use crate::values;
use corefun::Refusal;
use second::calls::{self, Direction as SecondDirection};
use second::run::{watched, Seen, Start};
use second::value::Heap;

/// The second evaluator's answer, and a line for each term.
pub struct Trace {
    pub answer: Result<(Vec<u8>, u32), Refusal>,
    pub lines: Vec<String>,
}

/// Follows a run up to a depth.
pub fn trace(converter: &mut Converter, run: &Run, depth: usize) -> Trace {
    let untraced = |refusal: second::refusal::Refusal| Trace { answer: Err(refused(refusal)), lines: Vec::new() };
    let direction = match run.direction {
        Direction::Forward => SecondDirection::Forward,
        Direction::Backward => SecondDirection::Backward,
    };
    let mut checked = match second::typing::check(run.program) {
        Ok(checked) => checked,
        Err(refusal) => return untraced(refusal),
    };
    let mut heap = Heap::default();
    let given = calls::arguments(&mut checked, direction, run.function, run.ancillae, run.value, &mut heap);
    let (ancillae, value) = match given {
        Ok(given) => given,
        Err(refusal) => return untraced(refusal),
    };
    let start = Start { program: &checked.program, function: run.function, ancillae: &ancillae, value };
    let depth = u32::try_from(depth).unwrap_or(u32::MAX);
    let (outcome, seen) = watched(&start, direction, run.fuel, &mut heap, depth);
    let forms = forms(converter);
    let lines = seen.iter().map(|seen| line(converter, &forms, seen, &heap)).collect();
    let answer = outcome.map(|outcome| (heap.store(outcome.value), outcome.steps)).map_err(refused);
    Trace { answer, lines }
}

/// Both number their refusals as document 01 does.
fn refused(refusal: second::refusal::Refusal) -> Refusal {
    Refusal::new(refusal.number as u8, refusal.place).unwrap_or(Refusal::Workspace)
}

/// A term entry as it is told.
struct Form {
    place: String,
    text: String,
    ty: Option<TypeId>,
}

/// The forms of all term entries, by their numbers.
fn forms(converter: &Converter) -> Vec<Form> {
    let mut forms = Vec::new();
    for function in &converter.program.functions {
        note(converter, &function.body, &mut forms);
    }
    forms
}

/// Parts come before wholes, as in the program's bytes where they were built from text.
fn note(converter: &Converter, term: &Term, forms: &mut Vec<Form>) {
    term.parts().into_iter().for_each(|part| note(converter, part, forms));
    if let Some((source, _)) = &converter.text {
        let (place, text) = placed(source, term);
        forms.push(Form { place, text, ty: term.ty });
    }
}

/// Place, depth, form and value: what the term gives stands behind `=`, what it is given, backward, behind `<-`.
fn line(converter: &mut Converter, forms: &[Form], seen: &Seen, heap: &Heap) -> String {
    let form = forms.get(usize::from(seen.entry));
    let value = seen.value.map(|value| heap.store(value)).map(|bytes| {
        let typed =
            form.and_then(|form| form.ty).and_then(|ty| values::written(&mut converter.program.types, &bytes, ty));
        typed.or_else(|| values::written_plainly(&bytes)).unwrap_or_else(|| values::hexadecimal(&bytes))
    });
    let value = value.unwrap_or("stopped".to_string());
    let sign = if seen.backward { "<-" } else { "=" };
    let margin = "  ".repeat(seen.height.saturating_sub(1).min(WIDEST) as usize);
    match form {
        Some(form) => format!("{:>9} {margin}{} {sign} {value}", form.place, form.text),
        None => format!("{:>9} {margin}{sign} {value}", format!("term {}", seen.entry)),
    }
}

/// Deeper terms are not set in further.
const WIDEST: u32 = 20;
/// Longer terms are cut.
const LONGEST: usize = 40;

/// The term's place and its text. What was put in has the text that it was put in for, behind its form.
fn placed(source: &Source, term: &Term) -> (String, String) {
    let position = source.position(term.span.start);
    let place = format!("{}:{}", position.line, position.column);
    let written: String = source.slice(term.span).split_whitespace().collect::<Vec<_>>().join(" ");
    let cut: String = written.chars().take(LONGEST).collect();
    let dots = if cut.len() < written.len() { ".." } else { "" };
    let form = word(&term.kind);
    let plain = matches!(term.kind, TermKind::Variable(_) | TermKind::Call(..) | TermKind::Pair(..));
    let shown = if plain || written.starts_with(form) { String::new() } else { format!("{form}: ") };
    (place, format!("{shown}{cut}{dots}"))
}

fn word(kind: &TermKind) -> &'static str {
    match kind {
        TermKind::Variable(_) => "variable",
        TermKind::Unit => "unit",
        TermKind::Inl(..) => "inl",
        TermKind::Inr(..) => "inr",
        TermKind::Pair(..) => "pair",
        TermKind::Let(..) => "let",
        TermKind::LetPair(..) => "let pair",
        TermKind::Case(..) => "case",
        TermKind::Call(..) => "call",
        TermKind::Roll(..) => "roll",
        TermKind::Unroll(..) => "unroll",
    }
}
