//! The parser's frame: declarations, and what types, terms and patterns share.

use super::mistake::Mistake;
use super::source::{Source, Span};
use super::token::{tokens, Kind, Token};
use super::tree::*;

/// Deeper texts are turned down, so that no text exhausts the stack. A program of 1,024 terms needs less.
const DEEPEST: usize = 4_000;

/// Larger numbers are turned down: a value has at most 1,024 bytes.
const LARGEST: usize = 100_000;

pub(super) type Parsed<T> = Result<T, Mistake>;

pub(super) struct Parser<'a> {
    source: &'a Source,
    tokens: Vec<Token>,
    next: usize,
    depth: usize,
}

/// A whole text; all declarations are read, so that more than one mistake can be told.
pub fn parse_text(source: &Source) -> Result<Text, Vec<Mistake>> {
    let mut parser = Parser::new(source).map_err(|mistake| vec![mistake])?;
    let mut text = Text::default();
    let mut mistakes = Vec::new();
    while !parser.at_end() {
        let start = parser.next;
        if let Err(mistake) = parser.declaration(&mut text) {
            mistakes.push(mistake);
            parser.skip_declaration(start);
        }
    }
    if mistakes.is_empty() {
        Ok(text)
    } else {
        Err(mistakes)
    }
}

/// A value alone, as it is written in an argument.
pub fn parse_value(source: &Source) -> Parsed<Expr> {
    let mut parser = Parser::new(source)?;
    let value = parser.expr()?;
    if parser.at_end() {
        Ok(value)
    } else {
        Err(parser.unexpected("the value's end"))
    }
}

impl<'a> Parser<'a> {
    fn new(source: &'a Source) -> Parsed<Parser<'a>> {
        Ok(Parser { source, tokens: tokens(source)?, next: 0, depth: 0 })
    }

    fn declaration(&mut self, text: &mut Text) -> Parsed<()> {
        if self.at("type") {
            text.types.push(self.type_declaration()?);
        } else if self.at("fun") {
            text.functions.push(self.function()?);
        } else {
            return Err(self.unexpected("a declaration").help("a declaration begins with 'type' or 'fun'"));
        }
        Ok(())
    }

    /// Goes on with the next declaration behind the one that began there.
    fn skip_declaration(&mut self, start: usize) {
        self.depth = 0;
        self.next += usize::from(self.next == start);
        while !self.at_end() && !self.at("type") && !self.at("fun") {
            self.next += 1;
        }
    }

    fn function(&mut self) -> Parsed<FunctionDeclaration> {
        self.eat("fun")?;
        let name = self.lower("a function's name")?;
        let mut parameters = Vec::new();
        while self.at("(") {
            parameters.push(self.parameter()?);
        }
        if !self.at(":") {
            let help = "a function is written: fun name (ancilla : type) .. (dynamic : type) : type = term";
            return Err(self.unexpected("':' and the result's type").help(help));
        }
        self.eat(":")?;
        let result = self.type_expr()?;
        self.eat("=")?;
        let body = self.expr()?;
        if !self.at_end() && !self.at("type") && !self.at("fun") {
            return Err(self.unexpected("the next declaration"));
        }
        Ok(FunctionDeclaration { name, parameters, result, body })
    }

    fn parameter(&mut self) -> Parsed<Parameter> {
        self.eat("(")?;
        let name = self.lower("a parameter's name")?;
        self.eat(":")?;
        let ty = self.type_expr()?;
        self.eat(")")?;
        Ok(Parameter { name, ty })
    }

    pub fn peek(&self) -> Token {
        self.tokens[self.next.min(self.tokens.len() - 1)]
    }

    pub fn at(&self, word: &str) -> bool {
        matches!(self.peek().kind, Kind::Fixed(fixed) if fixed == word)
    }

    pub fn at_any(&self, words: &[&str]) -> bool {
        words.iter().any(|word| self.at(word))
    }

    pub fn at_kind(&self, kind: Kind) -> bool {
        self.peek().kind == kind
    }

    pub fn at_end(&self) -> bool {
        self.at_kind(Kind::End)
    }

    pub fn advance(&mut self) -> Token {
        let token = self.peek();
        self.next += 1;
        token
    }

    pub fn eat(&mut self, word: &str) -> Parsed<Token> {
        if self.at(word) {
            Ok(self.advance())
        } else {
            Err(self.unexpected(&format!("'{word}'")))
        }
    }

    pub fn lower(&mut self, what: &str) -> Parsed<Name> {
        if self.at_kind(Kind::Upper) {
            let help = "names of variables and functions begin with a small letter";
            return Err(self.unexpected(what).help(help));
        }
        self.name(Kind::Lower, what)
    }

    pub fn upper(&mut self, what: &str) -> Parsed<Name> {
        if self.at_kind(Kind::Lower) {
            let help = "names of types and alternatives begin with a capital";
            return Err(self.unexpected(what).help(help));
        }
        self.name(Kind::Upper, what)
    }

    fn name(&mut self, kind: Kind, what: &str) -> Parsed<Name> {
        if self.at_kind(kind) {
            let span = self.advance().span;
            Ok(Name { text: self.source.slice(span).to_string(), span })
        } else {
            Err(self.unexpected(what))
        }
    }

    pub fn number(&mut self) -> Parsed<(usize, Span)> {
        let span = self.advance().span;
        match self.source.slice(span).parse() {
            Ok(number) if number <= LARGEST => Ok((number, span)),
            _ => Err(Mistake::new(span, "this number is too large").help("a value has at most 1,024 bytes")),
        }
    }

    /// What stands here, told as not what is wanted.
    pub fn unexpected(&self, wanted: &str) -> Mistake {
        let token = self.peek();
        let found = match token.kind {
            Kind::End => "the text ends".to_string(),
            _ => format!("'{}' stands", self.source.slice(token.span)),
        };
        Mistake::new(token.span, format!("{found} where {wanted} is wanted"))
    }

    /// Runs a part of the parser one level deeper.
    pub fn deeper<T>(&mut self, part: impl FnOnce(&mut Self) -> Parsed<T>) -> Parsed<T> {
        self.depth += 1;
        if self.depth > DEEPEST {
            return Err(Mistake::new(self.peek().span, "the text is nested too deep"));
        }
        let parsed = part(self);
        self.depth -= 1;
        parsed
    }

    /// Runs a part of the parser; if it does not stand here, nothing was read.
    pub fn attempt<T>(&mut self, part: impl FnOnce(&mut Self) -> Parsed<T>) -> Option<T> {
        let (next, depth) = (self.next, self.depth);
        let parsed = part(self);
        if parsed.is_err() {
            (self.next, self.depth) = (next, depth);
        }
        parsed.ok()
    }

    /// The stretch from a place to the end of the token read last.
    pub fn since(&self, start: usize) -> Span {
        let last = self.next.saturating_sub(1).min(self.tokens.len() - 1);
        Span::new(start, self.tokens[last].span.end.max(start))
    }

    /// Parts between `(` and `)`, parted by commas; none is the unit.
    pub fn parenthesised<T>(&mut self, part: impl Fn(&mut Self) -> Parsed<T>) -> Parsed<Vec<T>> {
        self.eat("(")?;
        let mut parts = Vec::new();
        if !self.at(")") {
            parts.push(part(self)?);
            while self.at(",") {
                self.advance();
                parts.push(part(self)?);
            }
        }
        self.eat(")")?;
        Ok(parts)
    }
}
