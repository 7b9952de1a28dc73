//! What a command answers: its exit status, what it says, and the same for scripts.

use crate::values::hexadecimal;
use corefun::Refusal;
use std::fmt::Write;

/// The exit status.
#[derive(Clone, Copy, PartialEq, Eq, Debug)]
pub enum Status {
    Accepted = 0,
    Refused = 1,
    /// Nothing was asked of the engine, or nothing came of it: usage, a file, a text.
    NotAsked = 2,
    /// Done, but the answer could not be written.
    Unwritten = 3,
}

impl Status {
    fn word(self) -> &'static str {
        match self {
            Status::Accepted => "accepted",
            Status::Refused => "refused",
            Status::NotAsked => "error",
            Status::Unwritten => "unwritten",
        }
    }
}

#[derive(Clone, PartialEq, Eq, Debug)]
pub enum Json {
    Number(u64),
    Text(String),
    List(Vec<Json>),
    Object(Vec<(&'static str, Json)>),
}

impl Json {
    pub fn text(text: impl Into<String>) -> Json {
        Json::Text(text.into())
    }

    pub fn bytes(bytes: &[u8]) -> Json {
        Json::Text(hexadecimal(bytes))
    }

    fn write(&self, out: &mut String) {
        match self {
            Json::Number(number) => {
                let _ = write!(out, "{number}");
            }
            Json::Text(text) => quoted(text, out),
            Json::List(items) => listed(out, ['[', ']'], items, |item, out| item.write(out)),
            Json::Object(fields) => listed(out, ['{', '}'], fields, |(name, value), out| {
                quoted(name, out);
                out.push(':');
                value.write(out);
            }),
        }
    }
}

impl std::fmt::Display for Json {
    fn fmt(&self, f: &mut std::fmt::Formatter) -> std::fmt::Result {
        let mut out = String::new();
        self.write(&mut out);
        f.write_str(&out)
    }
}

fn listed<T>(out: &mut String, [open, close]: [char; 2], items: &[T], each: impl Fn(&T, &mut String)) {
    out.push(open);
    for (number, item) in items.iter().enumerate() {
        if number > 0 {
            out.push(',');
        }
        each(item, out);
    }
    out.push(close);
}

fn quoted(text: &str, out: &mut String) {
    out.push('"');
    for c in text.chars() {
        match c {
            '"' | '\\' => out.extend(['\\', c]),
            '\n' => out.push_str("\\n"),
            c if c.is_control() => {
                let _ = write!(out, "\\u{:04x}", u32::from(c));
            }
            c => out.push(c),
        }
    }
    out.push('"');
}

#[derive(Clone, Debug)]
pub struct Answer {
    pub status: Status,
    /// For standard output.
    pub out: Vec<u8>,
    /// For standard error.
    pub err: String,
    pub json: Vec<(&'static str, Json)>,
}

impl Answer {
    pub fn accepted(out: impl Into<Vec<u8>>, json: Vec<(&'static str, Json)>) -> Answer {
        Answer { status: Status::Accepted, out: out.into(), err: String::new(), json }
    }

    /// Nothing was asked: why.
    pub fn error(what: impl Into<String>) -> Answer {
        let what = what.into();
        let json = vec![("message", Json::text(what.trim_end()))];
        Answer { status: Status::NotAsked, out: Vec::new(), err: ended(what), json }
    }

    pub fn refused(refusal: Refusal, told: String) -> Answer {
        let json = vec![
            ("number", Json::Number(refusal.number().into())),
            ("place", Json::Number(refusal.place().into())),
            ("meaning", Json::text(refusal.meaning())),
            ("message", Json::text(told.trim_end())),
        ];
        Answer { status: Status::Refused, out: Vec::new(), err: ended(told), json }
    }

    pub fn with(mut self, name: &'static str, value: Json) -> Answer {
        self.json.push((name, value));
        self
    }

    /// The terms that were entered, before the answer.
    pub fn traced(mut self, lines: &[String]) -> Answer {
        let text: String = lines.iter().map(|line| format!("{line}\n")).collect();
        self.out.splice(0..0, text.into_bytes());
        self.with("trace", Json::List(lines.iter().map(Json::text).collect()))
    }

    /// A further line for people.
    pub fn also(mut self, note: &str) -> Answer {
        self.err += &format!("  note: {note}\n");
        self.with("note", Json::text(note))
    }

    /// One line for scripts.
    pub fn for_scripts(&self) -> String {
        let mut fields = vec![("status", Json::text(self.status.word()))];
        fields.extend(self.json.iter().cloned());
        format!("{}\n", Json::Object(fields))
    }
}

/// So many of what a noun names.
pub fn counted(count: usize, noun: &str) -> String {
    format!("{count} {noun}{}", if count == 1 { "" } else { "s" })
}

fn ended(mut text: String) -> String {
    if !text.ends_with('\n') {
        text.push('\n');
    }
    text
}

#[cfg(test)]
mod tests {
    use super::*;

    #[test]
    fn scripts_get_one_line() {
        let answer = Answer::accepted("", vec![("value", Json::text("a\"\n\u{1}")), ("steps", Json::Number(3))]);
        assert_eq!(answer.for_scripts(), "{\"status\":\"accepted\",\"value\":\"a\\\"\\n\\u0001\",\"steps\":3}\n");
    }
}
