//! build, check and show.

use super::answer::{counted, Answer, Json, Status};
use super::load::Converter;
use super::options::Options;
use super::targets::Target;
use crate::core::read::{fields, Field};
use crate::core::{EntryKind, Layout};
use crate::engine;
use crate::journal::store;
use crate::show::show;
use crate::text::Source;
use std::path::Path;

type Answered = Result<Answer, Box<Answer>>;

pub fn check(options: &Options) -> Answered {
    let converter = Converter::load(&options.arguments[0])?;
    let json = counts(&converter);
    Ok(Answer::accepted(format!("{}: accepted, {}\n", converter.name, summary(&converter)), json))
}

/// How many types, terms and functions the bytes have.
fn entries(converter: &Converter) -> [usize; 3] {
    let fields = fields(&converter.bytes);
    [EntryKind::Type, EntryKind::Term, EntryKind::Function]
        .map(|kind| fields.iter().filter(|field| field.kind == kind).count())
}

fn summary(converter: &Converter) -> String {
    let [types, terms, functions] = entries(converter);
    let counts = [(types, "type"), (terms, "term"), (functions, "function"), (converter.bytes.len(), "byte")];
    counts.map(|(count, noun)| counted(count, noun)).join(", ")
}

fn counts(converter: &Converter) -> Vec<(&'static str, Json)> {
    let [types, terms, functions] = entries(converter).map(|count| Json::Number(count as u64));
    let bytes = Json::Number(converter.bytes.len() as u64);
    vec![("types", types), ("terms", terms), ("functions", functions), ("bytes", bytes)]
}

pub fn build(options: &Options) -> Answered {
    let name = &options.arguments[0];
    let converter = Converter::load(name)?;
    let Some((source, layout)) = &converter.text else {
        return Err(Box::new(Answer::error(format!("{name}: error: these are a program's bytes already"))));
    };
    let output = options.output.clone().unwrap_or_else(|| default_output(name));
    let map = format!("{output}.map");
    let target = |target, ours| Target { name: target, input: name, ours, force: options.force };
    let program = target(&output, |old| !old.is_empty() && engine::check(old).is_ok());
    let places = target(&map, |old| old.starts_with(MAP_HEAD.as_bytes()));
    // Both are tested before either is written, so that a refusal leaves both as they were.
    let program = program.tested()?;
    // The program's file is locked by now: were the map's name another one of it, the process would wait for itself.
    if store::same(Path::new(&output), Path::new(&map)) {
        let what = format!("{map}: error: this is the same file as {output}\n  help: write into another");
        return Err(Box::new(Answer::error(what)));
    }
    let places = places.tested()?;
    program.put(&converter.bytes)?;
    places.put(map_text(source, layout, &converter).as_bytes()).map_err(|answer| {
        let answer = Answer { status: Status::Unwritten, ..*answer };
        Box::new(answer.also(&format!("{output} is written")))
    })?;
    let mut json = counts(&converter);
    json.extend([("output", Json::text(&output)), ("map", Json::text(&map))]);
    Ok(Answer::accepted(format!("{output}: {}\n", summary(&converter)), json))
}

fn default_output(name: &str) -> String {
    format!("{}.cf", name.strip_suffix(".fun").unwrap_or(name))
}

const MAP_HEAD: &str = "offset entry number line:column\n";

/// A line for each entry: its offset in the bytes, what it is, its place in the text.
fn map_text(source: &Source, layout: &Layout, converter: &Converter) -> String {
    let mut text = MAP_HEAD.to_string();
    for entry in &layout.entries {
        let position = source.position(entry.span.start);
        text += &format!(
            "{} {} {} {}:{}",
            entry.offset,
            entry.kind.word(),
            entry.number,
            position.line,
            position.column
        );
        if entry.kind == EntryKind::Function {
            text += &format!(" {}", converter.program.functions[entry.number].name);
        }
        text.push('\n');
    }
    text
}

pub fn show_program(options: &Options) -> Answered {
    let converter = Converter::load(&options.arguments[0])?;
    let mut text = match crate::core::read::read(&converter.bytes) {
        Some(mut program) => show(&mut program),
        None => String::new(),
    };
    if options.offsets {
        text += &offsets(&fields(&converter.bytes));
    }
    Ok(Answer::accepted(text.clone(), vec![("text", Json::text(text))]))
}

/// The entries as a comment, so that the text still builds.
fn offsets(fields: &[Field]) -> String {
    let mut text = "\n-- offset entry\n".to_string();
    for field in fields {
        let body = crate::values::hexadecimal(field.body);
        text += &format!("-- {:>6} {} {}: {body}\n", field.offset, field.kind.word(), field.number);
    }
    text
}
