//! Texts with a `~` before the place that is meant, and what is told there.

use crate::carried::scratch;
use tulakkez::command::answer::{Answer, Status};
use tulakkez::command::{run, Converter};
use tulakkez::engine::check;
use tulakkez::text::Source;

const TYPES: &str = "type Nat = Zero | Succ Nat\ntype Bool = True | False\ntype Lights = Red | Yellow | Green\n";

/// The text without its mark, behind some types, and the place of the mark as it is told.
pub fn marked(text: &str) -> (String, String) {
    let whole = format!("{TYPES}{text}");
    let at = whole.find('~').expect("a mark");
    let source = Source::new("t", whole.replacen('~', "", 1));
    let position = source.position(at);
    (source.text, format!("{}:{}", position.line, position.column))
}

pub fn converter(text: &str) -> Result<Converter, Box<Answer>> {
    Converter::of_text(Source::new("t.fun", text))
}

/// The engine refuses the program of the text with this number, and it is told at the mark. All that is told.
pub fn refused(text: &str, number: u8, what: &str) -> String {
    let (text, place) = marked(text);
    let converter = converter(&text).unwrap_or_else(|answer| panic!("{}", answer.err));
    let refusal = check(&converter.bytes).expect_err("a refusal");
    assert_eq!(refusal.number(), number, "{refusal}\n{text}");
    let answer = converter.refused(refusal);
    assert_eq!(answer.status, Status::Refused);
    let expected = format!("t.fun:{place}: error: refused {number}: {what}");
    assert!(answer.err.starts_with(&expected), "{}\n{expected}\n{text}", answer.err);
    answer.err
}

/// A run of the text, in the file FILE of these words: it is refused with this number, and told at the mark. All that is told.
pub fn run_refused(text: &str, words: &[&str], number: u8, what: &str) -> String {
    let (text, place) = marked(text);
    let scratch = scratch("marked");
    scratch.file("t.fun", &text);
    let file = scratch.0.join("t.fun").to_string_lossy().into_owned();
    let words: Vec<String> = words.iter().map(|word| word.replace("FILE", &file)).collect();
    let answer = run(&words).answer;
    assert_eq!(answer.status, Status::Refused, "{}\n{text}", answer.err);
    let told = answer.err.replace(&file, "t.fun");
    let expected = format!("t.fun:{place}: error: refused {number}: {what}");
    assert!(told.starts_with(&expected), "{told}\n{expected}\n{text}");
    told
}
