//! Programs from files: texts, which are built, and bytes, which are read back; and journal files as they are.

use super::answer::{Answer, Json};
use crate::build::build;
use crate::core::layout::EntryKind;
use crate::core::read::{fields, read};
use crate::core::{lay_out, Layout, Program};
use crate::engine;
use crate::explain::{explain, help};
use crate::journal::{store, Contents, Unreadable};
use crate::text::{Mistake, Source};
use crate::values::hexadecimal;
use corefun::Refusal;
use std::path::Path;

/// A program with its names. Its bytes are what the engine is given.
#[derive(Clone, Debug)]
pub struct Converter {
    /// The name under which it was given.
    pub name: String,
    pub program: Program,
    pub bytes: Vec<u8>,
    /// The text that it was built from, with the places of its entries.
    pub text: Option<(Source, Layout)>,
}

/// A program's bytes, its text or a journal file with it are not longer.
const LONGEST: usize = crate::journal::form::LONGEST;

/// A text is not longer, so that a journal file that keeps it is not too long either.
const LONGEST_TEXT: usize = 1 << 20;

impl Converter {
    /// A program that the engine accepts.
    pub fn load(name: &str) -> Result<Converter, Box<Answer>> {
        let converter = Converter::unchecked(name)?;
        match engine::check(&converter.bytes) {
            Ok(()) => Ok(converter),
            Err(refusal) => Err(Box::new(converter.refused(refusal))),
        }
    }

    /// A program as it is given. Bytes that the engine refuses have no functions.
    fn unchecked(name: &str) -> Result<Converter, Box<Answer>> {
        let bytes = store::read(Path::new(name), LONGEST).map_err(|error| file_error(name, &error))?;
        if let Ok(contents) = Contents::read(&bytes) {
            return Ok(Converter::of_journal(name, &contents));
        }
        if is_text(name, &bytes) {
            if bytes.len() > LONGEST_TEXT {
                let what = format!("{name}: error: the text is over {LONGEST_TEXT} bytes");
                return Err(Box::new(Answer::error(what)));
            }
            let Ok(text) = String::from_utf8(bytes) else {
                return Err(Box::new(Answer::error(format!("{name}: error: the text is not in UTF-8"))));
            };
            return Converter::of_text(Source::new(name, text));
        }
        Ok(Converter::of_bytes(name, bytes))
    }

    pub fn of_text(source: Source) -> Result<Converter, Box<Answer>> {
        let mut program = build(&source).map_err(|mistakes| mistaken(&source, &mistakes))?;
        let layout = lay_out(&mut program);
        let bytes = layout.bytes.clone();
        Ok(Converter { name: source.name.clone(), program, bytes, text: Some((source, layout)) })
    }

    pub fn of_bytes(name: &str, bytes: Vec<u8>) -> Converter {
        let program = engine::check(&bytes).ok().and_then(|()| read(&bytes)).unwrap_or_default();
        Converter { name: name.to_string(), program, bytes, text: None }
    }

    /// The program of a journal file. The text gives it names if it is the text of these bytes.
    pub fn of_journal(name: &str, contents: &Contents) -> Converter {
        let source = Source::new(format!("{name}'s program"), contents.text.clone());
        match Converter::of_text(source) {
            Ok(built) if built.bytes == contents.program => Converter { name: name.to_string(), ..built },
            _ => Converter::of_bytes(name, contents.program.clone()),
        }
    }

    /// A refusal, at its place in the text or in the bytes.
    pub fn refused(&self, refusal: Refusal) -> Answer {
        if let Some((source, layout)) = &self.text {
            if let Some(mistake) = explain(&mut self.program.clone(), source, layout, refusal) {
                let position = source.position(mistake.span.start);
                return Answer::refused(refusal, mistake.told(source))
                    .with("file", Json::text(&source.name))
                    .with("line", Json::Number(position.line as u64))
                    .with("column", Json::Number(position.column as u64));
            }
        }
        Answer::refused(refusal, format!("{}{}", self.in_bytes(refusal), helped(refusal)))
    }

    /// A refusal with the field of the bytes at its place.
    fn in_bytes(&self, refusal: Refusal) -> String {
        let (name, number, meaning) = (&self.name, refusal.number(), refusal.meaning());
        let fields = fields(&self.bytes);
        let place = refusal.place() as usize;
        let field = match (refusal.offset(), refusal.term()) {
            (Some(_), _) => fields.iter().find(|field| field.offset == place),
            (_, Some(_)) => fields.iter().find(|field| field.kind == EntryKind::Term && field.number == place),
            _ => return format!("{name}: error: refused {number}: {meaning}\n"),
        };
        match field {
            None => format!("{name}: byte {place}: error: refused {number}: {meaning}\n"),
            Some(field) => {
                let head = &self.bytes[field.offset..field.offset + 3];
                let told = format!("{name}: byte {}: error: refused {number}: {meaning}\n", field.offset);
                let line = format!("  {} {}", hexadecimal(head), hexadecimal(field.body));
                let mark = "^".repeat(line.len() - 2);
                told + &format!("{line}   {} {}\n  {mark}\n", field.kind.word(), field.number)
            }
        }
    }

    /// The function of a name or a number. A number that no function has is for the engine to refuse.
    pub fn function(&self, text: &str) -> Result<u16, Box<Answer>> {
        if let Some(number) = self.program.function_number(text) {
            return Ok(number as u16);
        }
        text.parse().map_err(|_| {
            let names = self.program.functions.iter().map(|function| function.name.as_str());
            let near = crate::text::mistake::nearest(text, names.clone());
            let help = match near {
                Some(near) => format!("did you mean {near}?"),
                None if self.program.functions.is_empty() => "it has no functions".to_string(),
                None => format!("it has {}", names.collect::<Vec<_>>().join(", ")),
            };
            Box::new(Answer::error(format!("{}: error: no function is named {text}\n  help: {help}", self.name)))
        })
    }
}

fn helped(refusal: Refusal) -> String {
    format!("  help: {}\n", help(refusal.number()))
}

/// A text is told by its name or by its first byte: a program's fields begin with 1, 2 or 3.
fn is_text(name: &str, bytes: &[u8]) -> bool {
    name.ends_with(".fun") || bytes.first().is_some_and(|&first| first > 8 && first != 0x21 && first != 0x22)
}

/// A journal file as it is, or why it is none. No lock is taken: the file is only ever replaced whole, so that one state of it is read.
pub fn look(name: &str) -> Result<Result<Contents, Unreadable>, Box<Answer>> {
    let bytes = store::read(Path::new(name), LONGEST).map_err(|error| file_error(name, &error))?;
    Ok(Contents::read(&bytes))
}

pub fn unreadable(name: &str, why: Unreadable) -> Box<Answer> {
    Box::new(Answer::error(format!("{name}: error: {why}\n  help: it was left alone")))
}

/// A refusal for what is in a file, or is to be in it, and not for the program.
pub fn refused_file(file: &str, refusal: Refusal, help: &str) -> Answer {
    let (number, meaning) = (refusal.number(), refusal.meaning());
    Answer::refused(refusal, format!("{file}: error: refused {number}: {meaning}\n  help: {help}\n"))
        .with("file", Json::text(file))
}

pub fn file_error(name: &str, error: &std::io::Error) -> Box<Answer> {
    Box::new(Answer::error(format!("{name}: error: {error}")))
}

/// All mistakes of a text.
pub fn mistaken(source: &Source, mistakes: &[Mistake]) -> Box<Answer> {
    let told: String = mistakes.iter().map(|mistake| mistake.told(source)).collect();
    let places = mistakes.iter().map(|mistake| {
        let position = source.position(mistake.span.start);
        Json::Object(vec![
            ("file", Json::text(&source.name)),
            ("line", Json::Number(position.line as u64)),
            ("column", Json::Number(position.column as u64)),
            ("what", Json::text(&mistake.what)),
        ])
    });
    Box::new(Answer::error(told).with("mistakes", Json::List(places.collect())))
}
