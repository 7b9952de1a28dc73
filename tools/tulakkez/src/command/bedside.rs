//! journal --bedside: the record and how many conversions stand, for a nurse. Of the journal it sees what the engine's nurse's reader answers, so
//! that two journals of one program with equal record and count are told alike, whatever their entries are.

use super::answer::{Answer, Json};
use super::load::{look, refused_file, Converter};
use super::options::Options;
use crate::core::term::Function;
use crate::core::types::TypeId;
use crate::core::Program;
use crate::engine::{self, Seen};
use crate::journal::Unreadable;
use crate::values;
use corefun::Refusal;
use std::collections::BTreeSet;

/// What a nurse does about a journal that cannot be read.
const CALL_SERVICE: &str = "call service; nothing was changed";

/// What she does about a record of several readings, and about one of none.
const ASK: &str = "ask the workshop which one is meant";
const NO_SUCH_RECORD: &str = "call service; no function of the program takes or gives such a record";

pub fn journal(options: &Options) -> Result<Answer, Box<Answer>> {
    let name = &options.arguments[0];
    let contents = look(name).map_err(unreached)?.map_err(|why| unreadable(name, why))?;
    let seen =
        engine::nurse(&contents.journal).map_err(|refusal| Box::new(refused_file(name, refusal, CALL_SERVICE)))?;
    let mut program = Converter::of_journal(name, &contents).program;
    Ok(told(&mut program, &seen, options.hex))
}

/// A file that the system does not give: what to do is the same.
fn unreached(answer: Box<Answer>) -> Box<Answer> {
    Box::new(Answer::error(format!("{}  help: {CALL_SERVICE}", answer.err)))
}

/// A damaged file is told as a malformed journal: there is no journal in it, and what to do is the same.
fn unreadable(name: &str, why: Unreadable) -> Box<Answer> {
    Box::new(match why {
        Unreadable::Damaged | Unreadable::Text => {
            refused_file(name, Refusal::Journal, CALL_SERVICE).also(&why.to_string())
        }
        Unreadable::Foreign | Unreadable::Version(_) => {
            Answer::error(format!("{name}: error: {why}\n  help: {CALL_SERVICE}"))
        }
    })
}

fn told(program: &mut Program, seen: &Seen, hex: bool) -> Answer {
    let (text, json) = match record(program, &seen.held, hex) {
        Record::One(text) => (format!("record  {text}\n"), ("record", Json::text(text))),
        Record::OfNoType(text) => {
            (format!("record  {text}\n  help: {NO_SUCH_RECORD}\n"), ("record", Json::text(text)))
        }
        Record::Several(readings) => {
            let lines: String = readings.iter().map(|(ty, text)| format!("  as {ty}: {text}\n")).collect();
            let lines = format!("record  can be read in more than one way:\n{lines}  help: {ASK}\n");
            let reading = |(ty, text)| Json::Object(vec![("type", Json::Text(ty)), ("record", Json::Text(text))]);
            (lines, ("readings", Json::List(readings.into_iter().map(reading).collect())))
        }
    };
    let json = vec![json, ("hex", Json::bytes(&seen.held)), ("standing", Json::Number(seen.standing as u64))];
    Answer::accepted(format!("{text}{}\n", conversions_stand(seen.standing)), json)
}

fn conversions_stand(standing: usize) -> String {
    match standing {
        0 => "no conversion stands".to_string(),
        1 => "1 conversion stands".to_string(),
        _ => format!("{standing} conversions stand"),
    }
}

/// A type's name, and the record's text in it.
type Reading = (String, String);

/// The record as it is told.
enum Record {
    One(String),
    /// None of the program's types has it.
    OfNoType(String),
    /// The program's types write it differently, and none of them is known to be meant.
    Several(BTreeSet<Reading>),
}

fn record(program: &mut Program, held: &[u8], hex: bool) -> Record {
    if hex {
        return Record::One(values::marked(held));
    }
    let readings = readings(program, held);
    let texts: BTreeSet<&String> = readings.iter().map(|(_, text)| text).collect();
    match texts.first() {
        None => Record::OfNoType(values::untyped(held)),
        Some(text) if texts.len() == 1 => Record::One(text.to_string()),
        Some(_) => Record::Several(readings),
    }
}

/// The record in each type that has it of those that a function carries records from or to. The type that the newest conversion gave it is not
/// asked for: that would tell of an entry.
fn readings(program: &mut Program, held: &[u8]) -> BTreeSet<Reading> {
    let sides = |function: &Function| {
        function.dynamic().map(|parameter| parameter.ty).into_iter().chain([function.result])
    };
    let types: BTreeSet<TypeId> = program.functions.iter().flat_map(sides).collect();
    let reading = |ty| Some((program.type_text(ty), values::written(&mut program.types, held, ty)?));
    types.into_iter().filter_map(reading).collect()
}
