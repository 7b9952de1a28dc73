//! Types and their declarations.

use super::parse::{Parsed, Parser};
use super::token::Kind;
use super::tree::*;

impl Parser<'_> {
    pub(super) fn type_declaration(&mut self) -> Parsed<TypeDeclaration> {
        self.eat("type")?;
        let name = self.upper("a type's name")?;
        if self.at_kind(Kind::Lower) {
            let help = "types have no parameters: declare a type for each that is wanted";
            return Err(self.unexpected("'='").help(help));
        }
        self.eat("=")?;
        let body = self.type_body()?;
        if !self.at_end() && !self.at("type") && !self.at("fun") {
            return Err(self.unexpected("the next declaration"));
        }
        Ok(TypeDeclaration { name, body })
    }

    /// Alternatives, or a type. A name that `+` or `*` follows begins a type.
    fn type_body(&mut self) -> Parsed<TypeBody> {
        if self.at("|") {
            self.advance();
            let first = self.alternative()?;
            return self.alternatives(first).map(TypeBody::Variant);
        }
        if !self.at_kind(Kind::Upper) {
            return self.type_expr().map(TypeBody::Alias);
        }
        let first = self.attempt(|parser| {
            let first = parser.alternative()?;
            match parser.at_any(&["+", "*"]) {
                true => Err(parser.unexpected("'|'")),
                false => Ok(first),
            }
        });
        match first {
            Some(first) => self.alternatives(first).map(either),
            None => self.type_expr().map(TypeBody::Alias),
        }
    }

    fn alternatives(&mut self, first: Alternative) -> Parsed<Vec<Alternative>> {
        let mut alternatives = vec![first];
        while self.at("|") {
            self.advance();
            alternatives.push(self.alternative()?);
        }
        Ok(alternatives)
    }

    fn alternative(&mut self) -> Parsed<Alternative> {
        let name = self.upper("an alternative's name")?;
        let mut parts = Vec::new();
        while self.at_any(&["(", "rec"]) || self.at_kind(Kind::Upper) || self.at_kind(Kind::Number) {
            parts.push(self.type_atom()?);
        }
        if self.at_kind(Kind::Lower) {
            return Err(self.unexpected("a type").help("names of types begin with a capital"));
        }
        Ok(Alternative { name, parts })
    }

    /// Sums bind weakest; sums and products lean to the right, as the paper's n-ary ones.
    pub(super) fn type_expr(&mut self) -> Parsed<TypeExpr> {
        self.deeper(|parser| {
            let left = parser.type_product()?;
            if !parser.at("+") {
                return Ok(left);
            }
            parser.advance();
            let right = parser.type_expr()?;
            let span = left.span.to(right.span);
            Ok(TypeExpr { span, kind: TypeKind::Sum(Box::new(left), Box::new(right)) })
        })
    }

    fn type_product(&mut self) -> Parsed<TypeExpr> {
        self.deeper(|parser| {
            let left = parser.type_atom()?;
            if !parser.at("*") {
                return Ok(left);
            }
            parser.advance();
            let right = parser.type_product()?;
            Ok(product(left, right))
        })
    }

    fn type_atom(&mut self) -> Parsed<TypeExpr> {
        let start = self.peek().span.start;
        if self.at("rec") {
            self.advance();
            let name = self.upper("a type variable")?;
            self.eat(".")?;
            let inner = self.type_expr()?;
            let kind = TypeKind::Rec(name, Box::new(inner));
            return Ok(TypeExpr { span: self.since(start), kind });
        }
        if self.at("(") {
            let parts = self.parenthesised(|parser| parser.type_expr())?;
            let span = self.since(start);
            return Ok(parts
                .into_iter()
                .rev()
                .reduce(|rest, part| product(part, rest))
                .map_or(TypeExpr { span, kind: TypeKind::Unit }, |tuple| TypeExpr { span, ..tuple }));
        }
        if self.at_kind(Kind::Number) {
            let wrong = self.unexpected("a type").help("the unit type is written 1");
            return match self.number()? {
                (1, span) => Ok(TypeExpr { span, kind: TypeKind::Unit }),
                _ => Err(wrong),
            };
        }
        let name = self.upper("a type")?;
        Ok(TypeExpr { span: name.span, kind: TypeKind::Name(name.text) })
    }
}

fn product(left: TypeExpr, right: TypeExpr) -> TypeExpr {
    TypeExpr { span: left.span.to(right.span), kind: TypeKind::Product(Box::new(left), Box::new(right)) }
}

fn either(mut alternatives: Vec<Alternative>) -> TypeBody {
    match (alternatives.pop(), alternatives.is_empty()) {
        (Some(Alternative { name, parts }), true) if parts.is_empty() => {
            let ty = TypeExpr { span: name.span, kind: TypeKind::Name(name.text.clone()) };
            TypeBody::Either(name, ty)
        }
        (last, _) => {
            alternatives.extend(last);
            TypeBody::Variant(alternatives)
        }
    }
}
