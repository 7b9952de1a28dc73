//! open, convert, rollback, export and import.

use super::answer::{Answer, Json, Status};
use super::load::{file_error, look, refused_file, unreadable, Converter};
use super::options::Options;
use super::runs::{read_all, read_one, refused, steps_text, value_text};
use super::targets::{read_from, standing_text, there_already, Target};
use crate::core::types::TypeId;
use crate::engine;
use crate::explain::help;
use crate::journal::form::LONGEST;
use crate::journal::store::{self, Locked, Unstored};
use crate::journal::{conversions, Contents, Conversion, FIELD_HEADER};
use crate::values;
use corefun::{Refusal, ENTRIES_BYTES, VALUE_BYTES};
use std::io::{self, Write};
use std::path::Path;

type Answered = Result<Answer, Box<Answer>>;

/// A buffer of this length has room for the longest record and the longest entries.
const ALWAYS_ENOUGH: usize = FIELD_HEADER + VALUE_BYTES + ENTRIES_BYTES;

/// A journal file that this process alone may replace, with what is in it.
struct Held {
    name: String,
    locked: Locked,
    contents: Contents,
    converter: Converter,
}

impl Held {
    fn open(options: &Options) -> Result<Held, Box<Answer>> {
        let name = options.arguments[0].clone();
        let mut locked = lock(&name, options)?;
        let bytes = locked.read(LONGEST).map_err(|error| file_error(&name, &error))?;
        let contents = Contents::read(&bytes).map_err(|why| unreadable(&name, why))?;
        let converter = Converter::of_journal(&name, &contents);
        Ok(Held { name, locked, contents, converter })
    }

    /// Stores the journal as a call has left it. Only then is the answer told.
    fn store(&self, answer: Answer) -> Answered {
        stored(&self.name, self.locked.replace(&self.contents.write()), answer)
    }
}

fn lock(name: &str, options: &Options) -> Result<Locked, Box<Answer>> {
    let waits = !options.no_wait;
    let waiting = || {
        if waits {
            let _ = writeln!(io::stderr(), "{name}: another writer has it; waiting");
        }
        waits
    };
    Locked::open(Path::new(name), waiting).map_err(|error| match error.kind() {
        io::ErrorKind::WouldBlock => Box::new(Answer::error(format!("{name}: error: another writer has it"))),
        _ => file_error(name, &error),
    })
}

fn stored(name: &str, stored: Result<(), Unstored>, answer: Answer) -> Answered {
    match stored {
        Ok(()) => Ok(answer),
        Err(Unstored::Unchanged(error)) => {
            Err(Box::new(Answer::error(format!("{name}: error: {error}\n  help: nothing was changed"))))
        }
        Err(Unstored::Unsynced(error)) => {
            let what = format!("{name}: error: the change was made, and its folder could not be synced: {error}");
            Err(Box::new(Answer { status: Status::Unwritten, ..Answer::error(what) }))
        }
    }
}

pub fn open(options: &Options) -> Answered {
    let name = &options.arguments[0];
    let mut converter = Converter::load(&options.arguments[1])?;
    let record = read_one(&mut converter, &options.arguments[2], 1, None)?;
    let length = options.length.unwrap_or(ALWAYS_ENOUGH);
    let journal = engine::open(&converter.bytes, &record, length)
        .map_err(|refusal| Box::new(not_opened(&converter, refusal, name, record.len(), length)))?;
    let text = converter.text.map(|(source, _)| source.text).unwrap_or_default();
    let contents = Contents { program: converter.bytes, journal, text };
    make(name, &contents, options, &options.arguments[1..2])?;
    let json = vec![("hex", Json::bytes(&record)), ("length", Json::Number(length as u64))];
    Ok(Answer::accepted(format!("{name}: opened\n"), json))
}

/// The program was accepted before: what is wrong is the record or the length of the journal.
fn not_opened(converter: &Converter, refusal: Refusal, name: &str, record: usize, length: usize) -> Answer {
    match refusal {
        Refusal::ValueBytes if record > VALUE_BYTES => {
            converter.refused(refusal).also(&format!("the record has {record} bytes"))
        }
        Refusal::JournalFull => {
            let note = format!("the record takes {} bytes, and the length is {length}", FIELD_HEADER + record);
            refused_file(name, refusal, LONGER).also(&note)
        }
        _ => converter.refused(refusal),
    }
}

const LONGER: &str = "open it with a larger --length; without one it is always long enough";

/// Makes a journal file; one that is there is replaced by force only, and nothing but a regular file. `inputs` are the files that were read.
fn make(name: &str, contents: &Contents, options: &Options, inputs: &[String]) -> Result<(), Box<Answer>> {
    let made = store::create(Path::new(name), &contents.write());
    let made = match made {
        Err(Unstored::Unchanged(error)) if error.kind() == io::ErrorKind::AlreadyExists => {
            if !options.force {
                return Err(not_forced(name, inputs));
            }
            let mut locked = lock(name, options)?;
            if is_source(name, &locked.read(LONGEST).unwrap_or_default(), inputs) {
                return Err(read_from(name));
            }
            locked.replace(&contents.write())
        }
        made => made,
    };
    stored(name, made, Answer::accepted("", Vec::new())).map(|_| ())
}

/// Whether a file was read and is no journal file. A journal file that gave its program may be opened anew: the new one holds the program too.
fn is_source(name: &str, old: &[u8], inputs: &[String]) -> bool {
    let read = inputs.iter().any(|input| store::same(Path::new(name), Path::new(input)));
    read && Contents::read(old).is_err()
}

fn not_forced(name: &str, inputs: &[String]) -> Box<Answer> {
    let path = Path::new(name);
    if let Err(error) = store::replaceable(path) {
        return file_error(name, &error);
    }
    let old = store::read(path, LONGEST).unwrap_or_default();
    match is_source(name, &old, inputs) {
        true => read_from(name),
        false => Box::new(Answer::error(there_already(name, &old, "a file that is no journal"))),
    }
}

pub fn convert(options: &Options) -> Answered {
    let mut held = Held::open(options)?;
    let function = held.converter.function(&options.arguments[1])?;
    let declared = held.converter.program.functions.get(usize::from(function)).cloned();
    let types: Vec<TypeId> =
        declared.iter().flat_map(|function| function.ancillae()).map(|parameter| parameter.ty).collect();
    let ancillae = read_all(&mut held.converter, &options.arguments[2..], &types)?;
    let contents = &mut held.contents;
    let done = engine::convert(&contents.program, function, &ancillae, options.fuel, &mut contents.journal)
        .map_err(|refusal| {
            Box::new(not_converted(&mut held, refusal, function, &options.arguments[2..], &types))
        })?;
    let answer = held_answer(&mut held, done.steps, declared.map(|function| function.result), options.hex);
    held.store(answer)
}

/// A conversion may be refused for its ancillae, or for the record that is held.
fn not_converted(held: &mut Held, refusal: Refusal, function: u16, given: &[String], types: &[TypeId]) -> Answer {
    let answer = refused(&mut held.converter, refusal, function, given, types);
    let record = held_record(&held.contents.journal);
    let Some(ty) = dynamic_type(&held.converter, function) else { return answer };
    match values::written(&mut held.converter.program.types, &record, ty) {
        None if refusal == Refusal::ValueType => {
            let what = format!("the held record is no value of type {}", held.converter.program.type_text(ty));
            answer.also(&what)
        }
        _ => answer,
    }
}

pub fn rollback(options: &Options) -> Answered {
    let mut held = Held::open(options)?;
    // Whether the journal is one is for the rollback to say: its program is looked at first.
    let newest = engine::workshop(&held.contents.journal).ok().and_then(|entries| conversions(&entries).pop());
    let fuel = newest.as_ref().map_or(0, Conversion::rollback_fuel);
    let contents = &mut held.contents;
    let done = engine::rollback(&contents.program, fuel, &mut contents.journal)
        .map_err(|refusal| Box::new(held.converter.refused(refusal)))?;
    let ty = newest.and_then(|newest| dynamic_type(&held.converter, newest.function));
    let answer = held_answer(&mut held, done.steps, ty, options.hex);
    held.store(answer)
}

fn dynamic_type(converter: &Converter, function: u16) -> Option<TypeId> {
    converter.program.functions.get(usize::from(function)).and_then(|f| f.dynamic()).map(|parameter| parameter.ty)
}

fn held_answer(held: &mut Held, steps: u32, ty: Option<TypeId>, hex: bool) -> Answer {
    let record = held_record(&held.contents.journal);
    let text = value_text(&mut held.converter, &record, ty, hex);
    let json =
        vec![("held", Json::text(&text)), ("hex", Json::bytes(&record)), ("steps", Json::Number(steps.into()))];
    Answer::accepted(format!("held {text}\n{}\n", steps_text(steps)), json)
}

/// The bytes of the held value; none of bytes that are no journal.
fn held_record(journal: &[u8]) -> Vec<u8> {
    engine::nurse(journal).map(|seen| seen.held).unwrap_or_default()
}

pub fn export(options: &Options) -> Answered {
    let name = &options.arguments[0];
    let contents = look(name)?.map_err(|why| unreadable(name, why))?;
    let json = vec![("length", Json::Number(contents.journal.len() as u64))];
    let ours = |_: &[u8]| false;
    match options.arguments.get(1) {
        None if options.json => Ok(Answer::accepted("", json).with("hex", Json::bytes(&contents.journal))),
        None => Ok(Answer::accepted(contents.journal, json)),
        Some(output) => {
            let target = Target { name: output, input: name, ours, force: options.force };
            target.tested()?.put(&contents.journal)?;
            Ok(Answer::accepted(format!("{output}: {} bytes\n", contents.journal.len()), json))
        }
    }
}

/// A journal's file of at most this length is read.
const LONGEST_JOURNAL: usize = 131_072;

pub fn import(options: &Options) -> Answered {
    let (name, file) = (&options.arguments[0], &options.arguments[2]);
    let converter = Converter::load(&options.arguments[1])?;
    let journal = store::read(Path::new(file), LONGEST_JOURNAL).map_err(|error| file_error(file, &error))?;
    let standing = replayed(&converter, &journal, file)?;
    let text = converter.text.map(|(source, _)| source.text).unwrap_or_default();
    let contents = Contents { program: converter.bytes, journal, text };
    make(name, &contents, options, &options.arguments[1..])?;
    let json = vec![("standing", Json::Number(standing as u64))];
    Ok(Answer::accepted(format!("{name}: {}\n", standing_text(standing)), json))
}

/// Rolls all conversions back and makes them again: only a journal that this program wrote comes out the same. How many there are.
fn replayed(converter: &Converter, journal: &[u8], file: &str) -> Result<usize, Box<Answer>> {
    let refused = |refusal: Refusal| {
        Box::new(match refusal {
            Refusal::Journal => refused_file(file, refusal, help(refusal.number())),
            _ => refused_file(file, refusal, "another program wrote this journal, or its bytes were changed"),
        })
    };
    let standing = conversions(&engine::workshop(journal).map_err(refused)?);
    let mut again = journal.to_vec();
    for conversion in standing.iter().rev() {
        engine::rollback(&converter.bytes, conversion.rollback_fuel(), &mut again).map_err(refused)?;
    }
    let first = engine::nurse(&again).map_err(refused)?.held;
    let mut again = engine::open(&converter.bytes, &first, journal.len()).map_err(refused)?;
    for conversion in &standing {
        let (function, fuel) = (conversion.function, engine::LARGEST_FUEL);
        engine::convert(&converter.bytes, function, &conversion.ancillae, fuel, &mut again).map_err(refused)?;
    }
    match again == journal {
        true => Ok(standing.len()),
        false => Err(Box::new(Answer::error(format!("{file}: error: another program wrote this journal")))),
    }
}
