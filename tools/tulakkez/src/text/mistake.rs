//! A mistake in a text: where, what is wrong, what to do. It is told with the line itself and a mark under the place.

use super::source::{Source, Span};

#[derive(Clone, PartialEq, Eq, Debug)]
pub struct Mistake {
    pub span: Span,
    pub what: String,
    pub help: Option<String>,
    /// Another place that has to do with it.
    pub note: Option<(Span, String)>,
}

impl Mistake {
    pub fn new(span: Span, what: impl Into<String>) -> Mistake {
        Mistake { span, what: what.into(), help: None, note: None }
    }

    pub fn help(mut self, help: impl Into<String>) -> Mistake {
        self.help = Some(help.into());
        self
    }

    pub fn note(mut self, span: Span, note: impl Into<String>) -> Mistake {
        self.note = Some((span, note.into()));
        self
    }

    /// As people read it.
    pub fn told(&self, source: &Source) -> String {
        let mut told = headed(source, self.span, "error", &self.what);
        if let Some((span, note)) = &self.note {
            told += &headed(source, *span, "note", note);
        }
        if let Some(help) = &self.help {
            told += &format!("  help: {help}\n");
        }
        told
    }
}

/// File, line and column, the text, the line itself and the mark.
fn headed(source: &Source, span: Span, word: &str, text: &str) -> String {
    let position = source.position(span.start);
    let number = position.line.to_string();
    let margin = " ".repeat(number.len());
    let line = source.line_at(span.start).replace('\t', " ");
    let room = line.chars().count() + 1 - position.column.min(line.chars().count() + 1);
    let width = source.slice(span).chars().take_while(|&c| c != '\n').count().clamp(1, room.max(1));
    let (before, mark) = (" ".repeat(position.column - 1), "^".repeat(width));
    format!(
        "{}:{}:{}: {word}: {text}\n  {number} | {line}\n  {margin} | {before}{mark}\n",
        source.name, position.line, position.column
    )
}

/// The name nearest to one that was not found, if one is near.
pub fn nearest<'a>(name: &str, known: impl Iterator<Item = &'a str>) -> Option<&'a str> {
    let most = match name.chars().count() {
        0 | 1 => 0,
        2 | 3 => 1,
        _ => 2,
    };
    known.map(|other| (distance(name, other), other)).filter(|&(far, _)| far <= most).min().map(|(_, other)| other)
}

/// How many characters must be changed, added or left out to get from one name to the other.
fn distance(from: &str, to: &str) -> usize {
    let to: Vec<char> = to.chars().collect();
    let mut row: Vec<usize> = (0..=to.len()).collect();
    for (i, c) in from.chars().enumerate() {
        let mut corner = row[0];
        row[0] = i + 1;
        for (j, &d) in to.iter().enumerate() {
            let changed = corner + usize::from(c != d);
            corner = row[j + 1];
            row[j + 1] = changed.min(row[j] + 1).min(corner + 1);
        }
    }
    row[to.len()]
}

#[cfg(test)]
mod tests {
    use super::*;

    #[test]
    fn a_mistake_is_told_with_its_line_and_a_mark() {
        let source = Source::new("a.fun", "type A = B\nfun f (x : Q) : A = x\n");
        let mistake = Mistake::new(Span::new(22, 23), "no type is named Q").help("declare it");
        let expected = "a.fun:2:12: error: no type is named Q\n  2 | fun f (x : Q) : A = x\n    |            ^\n  help: declare it\n";
        assert_eq!(mistake.told(&source), expected);
    }

    #[test]
    fn a_mark_stays_in_its_line() {
        let source = Source::new("a", "let x\nin y");
        assert!(Mistake::new(Span::new(4, 10), "w").told(&source).ends_with("    ^\n"));
        assert!(Mistake::new(Span::new(10, 10), "w").told(&source).ends_with("    ^\n"));
    }

    #[test]
    fn near_names_are_offered() {
        assert_eq!(nearest("pluss", ["plus", "minus"].into_iter()), Some("plus"));
        assert_eq!(nearest("x", ["plus"].into_iter()), None);
    }
}
