//! Terms and patterns.

use super::mistake::Mistake;
use super::parse::{Parsed, Parser};
use super::source::Span;
use super::token::Kind;
use super::tree::*;

/// Words that begin a form with one operand.
const PREFIXES: [&str; 4] = ["inl", "inr", "roll", "unroll"];

impl Parser<'_> {
    pub(super) fn expr(&mut self) -> Parsed<Expr> {
        self.deeper(|parser| match parser.peek().kind {
            Kind::Fixed("let") => parser.let_in(),
            Kind::Fixed("case") => parser.case_of(),
            _ => parser.application(),
        })
    }

    fn let_in(&mut self) -> Parsed<Expr> {
        let start = self.eat("let")?.span.start;
        let pattern = self.pattern()?;
        self.eat("=")?;
        let bound = self.expr()?;
        self.eat("in")?;
        let body = self.expr()?;
        Ok(Expr { span: self.since(start), kind: ExprKind::Let(pattern, Box::new(bound), Box::new(body)) })
    }

    fn case_of(&mut self) -> Parsed<Expr> {
        let start = self.eat("case")?.span.start;
        let scrutinee = self.expr()?;
        self.eat("of")?;
        if self.at("|") {
            self.advance();
        }
        let pattern = self.pattern()?;
        let mut arms = vec![self.arm(pattern)?];
        while let Some(pattern) = self.next_arm()? {
            arms.push(self.arm(pattern)?);
        }
        Ok(Expr { span: self.since(start), kind: ExprKind::Case(Box::new(scrutinee), arms) })
    }

    fn arm(&mut self, pattern: Pattern) -> Parsed<Arm> {
        self.eat("=>")?;
        Ok(Arm { pattern, body: self.expr()? })
    }

    /// Arms are parted by `|`. The paper's comma does too, where a pattern and an arrow follow it: in a tuple they cannot.
    fn next_arm(&mut self) -> Parsed<Option<Pattern>> {
        if self.at("|") {
            self.advance();
            return self.pattern().map(Some);
        }
        Ok(self.attempt(|parser| {
            parser.eat(",")?;
            let pattern = parser.pattern()?;
            match parser.at("=>") {
                true => Ok(pattern),
                false => Err(parser.unexpected("'=>'")),
            }
        }))
    }

    fn application(&mut self) -> Parsed<Expr> {
        let start = self.peek().span.start;
        let upper = self.at_kind(Kind::Upper);
        if !upper && !self.at_kind(Kind::Lower) {
            return self.operand();
        }
        let name = if upper { self.upper("an alternative")? } else { self.lower("a name")? };
        let mut arguments = Vec::new();
        while self.at_operand() {
            arguments.push(self.operand()?);
        }
        let kind = match (upper, arguments.is_empty()) {
            (true, _) => ExprKind::Construct(name, arguments),
            (false, true) => ExprKind::Variable(name.text),
            (false, false) => ExprKind::Call(name, arguments),
        };
        Ok(Expr { span: self.since(start), kind })
    }

    fn at_operand(&self) -> bool {
        let is_name_or_number = matches!(self.peek().kind, Kind::Lower | Kind::Upper | Kind::Number);
        is_name_or_number || self.at("(") || self.at_any(&PREFIXES)
    }

    /// A form that needs no parentheses as an argument.
    fn operand(&mut self) -> Parsed<Expr> {
        self.deeper(|parser| match parser.peek().kind {
            Kind::Fixed(word) if PREFIXES.contains(&word) => parser.prefixed(word),
            Kind::Fixed("(") => parser.grouped(),
            Kind::Number => parser.number().map(|(number, span)| Expr { span, kind: ExprKind::Number(number) }),
            Kind::Lower => {
                parser.lower("a name").map(|name| Expr { span: name.span, kind: ExprKind::Variable(name.text) })
            }
            Kind::Upper => parser
                .upper("a name")
                .map(|name| Expr { span: name.span, kind: ExprKind::Construct(name, Vec::new()) }),
            _ => Err(parser.unexpected("a term")),
        })
    }

    fn prefixed(&mut self, word: &str) -> Parsed<Expr> {
        let start = self.advance().span.start;
        let ty = if self.at("[") { Some(self.bracketed()?) } else { None };
        let part = Box::new(self.operand()?);
        let kind = match word {
            "inl" => ExprKind::Inject(Side::Left, ty, part),
            "inr" => ExprKind::Inject(Side::Right, ty, part),
            "roll" => ExprKind::Roll(ty, part),
            _ => ExprKind::Unroll(ty, part),
        };
        Ok(Expr { span: self.since(start), kind })
    }

    fn bracketed(&mut self) -> Parsed<TypeExpr> {
        self.eat("[")?;
        let ty = self.type_expr()?;
        self.eat("]")?;
        Ok(ty)
    }

    /// Unit, a term with its type, a term in parentheses, or a tuple.
    fn grouped(&mut self) -> Parsed<Expr> {
        let start = self.peek().span.start;
        let mut parts = self.parenthesised(|parser| {
            let term = parser.expr()?;
            if !parser.at(":") {
                return Ok(term);
            }
            parser.advance();
            let ty = parser.type_expr()?;
            Ok(Expr { span: term.span.to(ty.span), kind: ExprKind::Typed(Box::new(term), ty) })
        })?;
        let span = self.since(start);
        Ok(match (parts.pop(), parts.is_empty()) {
            (None, _) => Expr { span, kind: ExprKind::Unit },
            (Some(alone), true) => Expr { span, kind: alone.kind },
            (Some(last), false) => {
                parts.push(last);
                Expr { span, kind: ExprKind::Tuple(parts) }
            }
        })
    }

    fn pattern(&mut self) -> Parsed<Pattern> {
        if !self.at_kind(Kind::Upper) {
            return self.pattern_operand();
        }
        let start = self.peek().span.start;
        let name = self.upper("an alternative")?;
        let mut parts = Vec::new();
        while self.at_operand() || self.at("_") {
            parts.push(self.pattern_operand()?);
        }
        Ok(Pattern { span: self.since(start), kind: PatternKind::Construct(name, parts) })
    }

    fn pattern_operand(&mut self) -> Parsed<Pattern> {
        self.deeper(|parser| {
            let start = parser.peek().span.start;
            let kind = match parser.peek().kind {
                Kind::Fixed("_") => {
                    parser.advance();
                    PatternKind::Any
                }
                Kind::Fixed("(") => return parser.pattern_group(),
                Kind::Fixed(word @ ("inl" | "inr" | "roll")) => parser.pattern_prefixed(word)?,
                Kind::Number => PatternKind::Number(parser.number()?.0),
                Kind::Lower => PatternKind::Variable(parser.lower("a pattern")?.text),
                Kind::Upper => PatternKind::Construct(parser.upper("a pattern")?, Vec::new()),
                _ => return Err(pattern_expected(parser.unexpected("a pattern"))),
            };
            Ok(Pattern { span: parser.since(start), kind })
        })
    }

    fn pattern_prefixed(&mut self, word: &str) -> Parsed<PatternKind> {
        self.advance();
        let part = Box::new(self.pattern_operand()?);
        Ok(match word {
            "inl" => PatternKind::Inject(Side::Left, part),
            "inr" => PatternKind::Inject(Side::Right, part),
            _ => PatternKind::Roll(part),
        })
    }

    fn pattern_group(&mut self) -> Parsed<Pattern> {
        let start = self.peek().span.start;
        let mut parts = self.parenthesised(|parser| parser.deeper(|parser| parser.pattern()))?;
        let span: Span = self.since(start);
        Ok(match (parts.pop(), parts.is_empty()) {
            (None, _) => Pattern { span, kind: PatternKind::Unit },
            (Some(alone), true) => Pattern { span, kind: alone.kind },
            (Some(last), false) => {
                parts.push(last);
                Pattern { span, kind: PatternKind::Tuple(parts) }
            }
        })
    }
}

fn pattern_expected(mistake: Mistake) -> Mistake {
    mistake.help("a pattern is a name, _, (), a number, a tuple, an alternative with its parts, inl, inr or roll")
}
