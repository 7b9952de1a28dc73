//! A text cut into tokens.

use super::mistake::Mistake;
use super::source::{Source, Span};

#[derive(Clone, Copy, PartialEq, Eq, Debug)]
pub enum Kind {
    /// A name that begins with a small letter or `_`: a variable or a function.
    Lower,
    /// A name that begins with a capital: a type or an alternative.
    Upper,
    Number,
    /// A word or sign of the language itself, in its plain spelling.
    Fixed(&'static str),
    End,
}

#[derive(Clone, Copy, Debug)]
pub struct Token {
    pub kind: Kind,
    pub span: Span,
}

const WORDS: [&str; 11] = ["type", "fun", "let", "in", "case", "of", "inl", "inr", "roll", "unroll", "rec"];

/// Signs with their plain spelling; longer ones first.
const SIGNS: [(&str, &str); 17] = [
    ("=>", "=>"),
    ("⇒", "=>"),
    ("μ", "rec"),
    ("µ", "rec"),
    ("×", "*"),
    ("(", "("),
    (")", ")"),
    ("[", "["),
    ("]", "]"),
    (",", ","),
    (":", ":"),
    ("=", "="),
    ("|", "|"),
    ("+", "+"),
    ("*", "*"),
    (".", "."),
    ("_", "_"),
];

pub fn tokens(source: &Source) -> Result<Vec<Token>, Mistake> {
    let mut tokens = Vec::new();
    let mut at = 0;
    loop {
        at = skip_blank(&source.text, at);
        let rest = &source.text[at..];
        let Some(first) = rest.chars().next() else { break };
        let (kind, length) = token(rest, first).ok_or_else(|| unknown(at, first))?;
        tokens.push(Token { kind, span: Span::new(at, at + length) });
        at += length;
    }
    // The end is told behind the last token, not behind the blank lines that may follow.
    let last = tokens.last().map_or(0, |token: &Token| token.span.end);
    let end = Span::new(last, last);
    tokens.push(Token { kind: Kind::End, span: end });
    Ok(tokens)
}

/// Past blanks and comments, which run from `--` to the end of the line.
fn skip_blank(text: &str, mut at: usize) -> usize {
    loop {
        let rest = &text[at..];
        let trimmed = rest.trim_start();
        at += rest.len() - trimmed.len();
        if !trimmed.starts_with("--") {
            return at;
        }
        at += trimmed.find('\n').unwrap_or(trimmed.len());
    }
}

/// The token that starts the text, and its length.
fn token(rest: &str, first: char) -> Option<(Kind, usize)> {
    let is_mu = first == 'μ' || first == 'µ';
    if first.is_ascii_digit() {
        return Some((Kind::Number, length_while(rest, |c| c.is_ascii_digit())));
    }
    if (first.is_alphabetic() && !is_mu) || first == '_' {
        let length = length_while(rest, |c| c.is_alphanumeric() || c == '_' || c == '\'');
        if length > 1 || first != '_' {
            return Some((word(&rest[..length], first), length));
        }
    }
    SIGNS.iter().find(|(sign, _)| rest.starts_with(sign)).map(|(sign, plain)| (Kind::Fixed(plain), sign.len()))
}

fn word(name: &str, first: char) -> Kind {
    match WORDS.iter().find(|&&word| word == name) {
        Some(word) => Kind::Fixed(word),
        None if first.is_uppercase() => Kind::Upper,
        None => Kind::Lower,
    }
}

fn length_while(text: &str, test: impl Fn(char) -> bool) -> usize {
    text.find(|c| !test(c)).unwrap_or(text.len())
}

/// Some editors put it before a text; it is not seen.
const BYTE_ORDER_MARK: char = '\u{feff}';

fn unknown(at: usize, first: char) -> Mistake {
    let sign = match first {
        BYTE_ORDER_MARK => "a byte order mark".to_string(),
        _ => format!("{first:?}"),
    };
    let mistake = Mistake::new(Span::new(at, at + first.len_utf8()), format!("{sign} has no meaning here"));
    match first {
        BYTE_ORDER_MARK => mistake.help("save the text as UTF-8 without it"),
        '-' => mistake.help("a comment begins with two dashes: --"),
        '{' | '}' | '/' | '#' => mistake.help("a comment runs from -- to the end of the line"),
        _ => mistake,
    }
}

#[cfg(test)]
mod tests {
    use super::*;

    fn kinds(text: &str) -> Vec<Kind> {
        tokens(&Source::new("t", text)).expect("tokens").iter().map(|token| token.kind).collect()
    }

    #[test]
    fn words_signs_names_and_numbers() {
        use Kind::*;
        let expected = [Fixed("case"), Lower, Fixed("of"), Upper, Fixed("_"), Fixed("=>"), Number, End];
        assert_eq!(kinds("case n' of Succ _ ⇒ 12 -- done"), expected);
        assert_eq!(kinds("μX.1+X×X"), kinds("rec X . 1 + X * X"));
        assert_eq!(kinds("_rest"), [Lower, End]);
    }

    #[test]
    fn a_sign_without_meaning_is_told() {
        let mistake = tokens(&Source::new("t", "a ? b")).expect_err("mistake");
        assert_eq!(mistake.span, Span::new(2, 3));
    }
}
