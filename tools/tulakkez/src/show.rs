//! A program as text that builds to the same program, up to the numbering of its entries. Everything is written out: the types of
//! injections, rolls and unrolls, and a name for each variable.

use crate::core::program::{type_text, Program};
use crate::core::read::variable_name;
use crate::core::term::{Function, Term, TermKind};
use crate::core::types::{Shape, TypeId, Types};
use std::collections::{HashMap, HashSet};

/// The text of a program whose functions and variables have the names of `core::read`.
pub fn show(program: &mut Program) -> String {
    let names = type_names(program);
    let shower = Shower { types: &program.types, names: &names, functions: &program.functions };
    let mut text = shower.declarations();
    for function in &program.functions {
        if !text.is_empty() {
            text.push('\n');
        }
        text += &shower.function(function);
    }
    text
}

/// Types of fewer nodes are written out where they stand.
const SMALL: usize = 4;

/// Names for the closed types that functions and terms name, and for their recursive parts, in the order in which they are completed.
fn type_names(program: &mut Program) -> Vec<(TypeId, String)> {
    let mut named = Vec::new();
    for function in &program.functions {
        named.push(function.result);
        named.extend(function.parameters.iter().map(|parameter| parameter.ty));
        named_in(&function.body, &mut named);
    }
    let mut order = Vec::new();
    let mut seen = HashSet::new();
    for &ty in &named {
        let ty = program.types.structural(ty);
        complete(&program.types, ty, &mut seen, &mut order);
    }
    let worth = |ty: &TypeId| {
        let recursive = matches!(program.types.shape(*ty), Shape::Recursive(_));
        program.types.closed(*ty) && (recursive || program.types.nodes(*ty) >= SMALL)
    };
    let worthy = order.into_iter().filter(worth);
    worthy.enumerate().map(|(number, ty)| (ty, format!("T{number}"))).collect()
}

fn named_in(term: &Term, named: &mut Vec<TypeId>) {
    term.parts().into_iter().for_each(|part| named_in(part, named));
    match term.kind {
        TermKind::Inl(ty, _) | TermKind::Inr(ty, _) | TermKind::Roll(ty, _) | TermKind::Unroll(ty, _) => {
            named.push(ty);
        }
        _ => (),
    }
}

fn complete(types: &Types, id: TypeId, seen: &mut HashSet<TypeId>, order: &mut Vec<TypeId>) {
    if !seen.insert(id) {
        return;
    }
    match types.shape(id) {
        Shape::Product(a, b) | Shape::Sum(a, b) => {
            complete(types, a, seen, order);
            complete(types, b, seen, order);
        }
        Shape::Recursive(inner) => complete(types, inner, seen, order),
        Shape::Unit | Shape::Bound(_) | Shape::Variant(_) => (),
    }
    order.push(id);
}

struct Shower<'a> {
    types: &'a Types,
    names: &'a [(TypeId, String)],
    functions: &'a [Function],
}

/// Where a term stands.
#[derive(Clone, Copy, PartialEq, Eq)]
enum Standing {
    /// Nothing follows it.
    Last,
    /// Something follows it, so that a let or case is put in parentheses.
    Inside,
    /// As an argument: whatever has an argument itself is put in parentheses.
    Argument,
}

impl Shower<'_> {
    fn declarations(&self) -> String {
        let by_id: HashMap<TypeId, &str> = self.names.iter().map(|(id, name)| (*id, name.as_str())).collect();
        let mut text = String::new();
        for (id, name) in self.names {
            let written = type_text(self.types, *id, &|part| {
                by_id.get(&part).filter(|_| part != *id).map(|name| name.to_string())
            });
            text += &format!("type {name} = {}\n", bare(&written));
        }
        text
    }

    fn ty(&self, id: TypeId) -> String {
        let named = |part: TypeId| self.names.iter().find(|(id, _)| *id == part).map(|(_, name)| name.clone());
        type_text(self.types, id, &named)
    }

    fn function(&self, function: &Function) -> String {
        let mut text = format!("fun {}", function.name);
        for parameter in &function.parameters {
            text += &format!(" ({} : {})", parameter.name, self.ty(parameter.ty));
        }
        let body = self.term(&function.body, function.parameters.len(), 1, Standing::Last);
        text + &format!(" : {} =\n  {body}\n", self.ty(function.result))
    }

    /// A term under so many variables, in a line indented so far.
    fn term(&self, term: &Term, variables: usize, indent: usize, standing: Standing) -> String {
        let text = match &term.kind {
            TermKind::Variable(number) => return variable_name(*number),
            TermKind::Unit => return "()".to_string(),
            TermKind::Pair(..) => return self.tuple(term, variables, indent),
            TermKind::Inl(ty, part) => self.prefixed("inl", *ty, part, variables, indent),
            TermKind::Inr(ty, part) => self.prefixed("inr", *ty, part, variables, indent),
            TermKind::Roll(ty, part) => self.prefixed("roll", *ty, part, variables, indent),
            TermKind::Unroll(ty, part) => self.prefixed("unroll", *ty, part, variables, indent),
            TermKind::Call(function, terms) => self.call(*function, terms, variables, indent),
            TermKind::Let(bound, body) => {
                let pattern = variable_name(variables);
                self.binding(&pattern, (bound, variables), (body, variables + 1), indent)
            }
            TermKind::LetPair(bound, body) => {
                let pattern = format!("({}, {})", variable_name(variables), variable_name(variables + 1));
                self.binding(&pattern, (bound, variables), (body, variables + 2), indent)
            }
            TermKind::Case(scrutinee, left, right) => self.case(scrutinee, [left, right], variables, indent),
        };
        let binds = matches!(term.kind, TermKind::Let(..) | TermKind::LetPair(..) | TermKind::Case(..));
        let is_prefixed = !binds && !matches!(term.kind, TermKind::Call(..));
        match standing {
            Standing::Last => text,
            Standing::Inside if !binds => text,
            Standing::Argument if is_prefixed => text,
            _ => format!("({text})"),
        }
    }

    fn tuple(&self, term: &Term, variables: usize, indent: usize) -> String {
        let mut parts = Vec::new();
        let mut rest = term;
        while let TermKind::Pair(left, right) = &rest.kind {
            parts.push(self.term(left, variables, indent + 1, Standing::Inside));
            rest = right;
        }
        parts.push(self.term(rest, variables, indent + 1, Standing::Inside));
        format!("({})", parts.join(", "))
    }

    fn prefixed(&self, word: &str, ty: TypeId, part: &Term, variables: usize, indent: usize) -> String {
        format!("{word} [{}] {}", bare(&self.ty(ty)), self.term(part, variables, indent + 1, Standing::Argument))
    }

    fn call(&self, function: usize, terms: &[Term], variables: usize, indent: usize) -> String {
        let name = self.functions.get(function).map_or("?", |function| function.name.as_str());
        let arguments = terms.iter().map(|term| self.term(term, variables, indent + 1, Standing::Argument));
        format!("{name} {}", arguments.collect::<Vec<_>>().join(" "))
    }

    fn binding(&self, pattern: &str, bound: (&Term, usize), body: (&Term, usize), indent: usize) -> String {
        let margin = "  ".repeat(indent);
        let bound = self.term(bound.0, bound.1, indent + 1, Standing::Inside);
        let body = self.term(body.0, body.1, indent, Standing::Last);
        format!("let {pattern} = {bound} in\n{margin}{body}")
    }

    fn case(&self, scrutinee: &Term, [left, right]: [&Term; 2], variables: usize, indent: usize) -> String {
        let margin = "  ".repeat(indent);
        let name = variable_name(variables);
        let scrutinee = self.term(scrutinee, variables, indent + 1, Standing::Inside);
        let left = self.term(left, variables + 1, indent + 2, Standing::Inside);
        let right = self.term(right, variables + 1, indent + 2, Standing::Last);
        format!("case {scrutinee} of\n{margin}  inl {name} => {left}\n{margin}| inr {name} => {right}")
    }
}

/// A type without parentheses around the whole of it.
fn bare(text: &str) -> &str {
    let inner = text.strip_prefix('(').and_then(|text| text.strip_suffix(')'));
    inner.filter(|inner| inner.starts_with("rec ") && balanced(inner)).unwrap_or(text)
}

fn balanced(text: &str) -> bool {
    let mut depth = 0_i64;
    text.chars().all(|c| {
        depth += i64::from(c == '(') - i64::from(c == ')');
        depth >= 0
    })
}
