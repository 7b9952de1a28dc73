//! run and back.

use super::answer::{counted, Answer, Json};
use super::load::{mistaken, Converter};
use super::options::Options;
use crate::core::types::TypeId;
use crate::engine::{self, Direction, Run};
use crate::text::Source;
use crate::trace::trace;
use crate::values;
use corefun::{Refusal, VALUE_BYTES};

type Answered = Result<Answer, Box<Answer>>;

pub fn run(options: &Options, direction: Direction) -> Answered {
    let mut converter = Converter::load(&options.arguments[0])?;
    let function = converter.function(&options.arguments[1])?;
    let given = &options.arguments[2..];
    let types = value_types(&converter, function, direction);
    let (value, ancillae) = match given.split_last() {
        Some((value, ancillae)) => {
            let ancillae = read_all(&mut converter, ancillae, &types.ancillae)?;
            (read_one(&mut converter, value, given.len(), types.given)?, ancillae)
        }
        None => (Vec::new(), Vec::new()),
    };
    let bytes = converter.bytes.clone();
    let call =
        Run { program: &bytes, direction, function, ancillae: &ancillae, value: &value, fuel: options.fuel };
    let answer = engine::run(&call);
    let traced = options.trace.map(|depth| trace(&mut converter, &call, depth));
    let told = match &answer {
        Ok((value, steps)) => told(&mut converter, value, *steps, types.answered, options.hex),
        Err(refusal) => {
            let wanted: Vec<TypeId> = types.ancillae.iter().copied().chain(types.given).collect();
            refused(&mut converter, *refusal, function, given, &wanted)
        }
    };
    Ok(match traced {
        Some(traced) if traced.answer != answer => Answer::error(format!(
            "{}: error: the second evaluator answers {:?}, and the engine {answer:?}",
            converter.name, traced.answer
        )),
        Some(traced) => told.traced(&traced.lines),
        None => told,
    })
}

/// A refusal of the call row has no place in the text: what is wrong is told by the function's own types.
pub fn refused(
    converter: &mut Converter,
    refusal: Refusal,
    function: u16,
    given: &[String],
    wanted: &[TypeId],
) -> Answer {
    let plain = converter.refused(refusal);
    let Some(declared) = converter.program.functions.get(usize::from(function)) else {
        return plain.also(&match converter.program.functions.len() {
            0 => format!("{} has no functions", converter.name),
            1 => format!("{} has 1 function, 0", converter.name),
            count => format!("{} has {count} functions, 0 to {}", converter.name, count - 1),
        });
    };
    if refusal == Refusal::ValueBytes && wanted.len() != given.len() {
        let are = if given.len() == 1 { "is" } else { "are" };
        let takes = counted(wanted.len(), "value");
        return plain.also(&format!("{} takes {takes} here, and {} {are} given", declared.name, given.len()));
    }
    let ancillae = declared.ancillae().len();
    match too_long(converter, given, wanted, ancillae).or_else(|| misfit(converter, given, wanted)) {
        Some(what) if matches!(refusal, Refusal::ValueBytes | Refusal::ValueType) => plain.also(&what),
        _ => plain,
    }
}

/// The first value that has too many bytes, or else the ancillae if they have too many together.
fn too_long(converter: &mut Converter, given: &[String], wanted: &[TypeId], ancillae: usize) -> Option<String> {
    let length = |(text, &ty): (&String, &TypeId)| read_one(converter, text, 0, Some(ty)).map_or(0, |b| b.len());
    let lengths: Vec<usize> = given.iter().zip(wanted).map(length).collect();
    let together: usize = lengths.iter().take(ancillae).sum();
    match lengths.iter().position(|&length| length > VALUE_BYTES) {
        Some(at) => Some(format!("value {} has {} bytes", at + 1, lengths[at])),
        None if together > VALUE_BYTES => Some(format!("the ancillae have {together} bytes together")),
        None => None,
    }
}

/// The first value that is not of the type that is wanted.
fn misfit(converter: &mut Converter, given: &[String], wanted: &[TypeId]) -> Option<String> {
    let found = given.iter().zip(wanted).find(|(text, &ty)| {
        let bytes = read_one(converter, text, 0, Some(ty)).unwrap_or_default();
        values::written(&mut converter.program.types, &bytes, ty).is_none()
    });
    found.map(|(text, &ty)| format!("{text} is no value of type {}", converter.program.type_text(ty)))
}

fn told(converter: &mut Converter, value: &[u8], steps: u32, ty: Option<TypeId>, hex: bool) -> Answer {
    let text = value_text(converter, value, ty, hex);
    let json =
        vec![("value", Json::text(&text)), ("hex", Json::bytes(value)), ("steps", Json::Number(steps.into()))];
    Answer::accepted(format!("{text}\n{}\n", steps_text(steps)), json)
}

pub fn steps_text(steps: u32) -> String {
    counted(steps as usize, "step")
}

/// A value in its type; in hexadecimal where that is wanted or the type does not have it.
pub fn value_text(converter: &mut Converter, value: &[u8], ty: Option<TypeId>, hex: bool) -> String {
    let typed = ty.filter(|_| !hex).and_then(|ty| values::written(&mut converter.program.types, value, ty));
    typed.unwrap_or_else(|| values::marked(value))
}

/// The types of a run's values, as far as there is such a function.
struct ValueTypes {
    ancillae: Vec<TypeId>,
    given: Option<TypeId>,
    answered: Option<TypeId>,
}

fn value_types(converter: &Converter, function: u16, direction: Direction) -> ValueTypes {
    let Some(function) = converter.program.functions.get(usize::from(function)) else {
        return ValueTypes { ancillae: Vec::new(), given: None, answered: None };
    };
    let ancillae = function.ancillae().iter().map(|parameter| parameter.ty).collect();
    let (from, to) = (function.dynamic().map(|parameter| parameter.ty), Some(function.result));
    match direction {
        Direction::Forward => ValueTypes { ancillae, given: from, answered: to },
        Direction::Backward => ValueTypes { ancillae, given: to, answered: from },
    }
}

/// The bytes of values one after another; how many there ought to be is for the engine to say.
pub fn read_all(converter: &mut Converter, texts: &[String], types: &[TypeId]) -> Result<Vec<u8>, Box<Answer>> {
    let mut bytes = Vec::new();
    for (number, text) in texts.iter().enumerate() {
        bytes.extend(read_one(converter, text, number + 1, types.get(number).copied())?);
    }
    Ok(bytes)
}

pub fn read_one(
    converter: &mut Converter,
    text: &str,
    number: usize,
    ty: Option<TypeId>,
) -> Result<Vec<u8>, Box<Answer>> {
    let source = Source::new(format!("value {number}"), text);
    values::read(&mut converter.program.types, &source, ty).map_err(|mistake| mistaken(&source, &[mistake]))
}
