//! A program as a tree of functions with the types that they name.

use super::term::{Function, Term, TermKind};
use super::types::{Shape, TypeId, Types};

#[derive(Clone, Debug, Default)]
pub struct Program {
    pub types: Types,
    pub functions: Vec<Function>,
}

impl Program {
    pub fn function_number(&self, name: &str) -> Option<usize> {
        self.functions.iter().position(|function| function.name == name)
    }

    /// The term entry of this number, in the order in which `layout` numbers them.
    pub fn term(&self, number: usize) -> Option<Found<'_>> {
        let mut left = number;
        self.functions
            .iter()
            .find_map(|function| nth(&function.body, function.parameters.len(), &mut left, function))
    }

    /// A type as the text writes it.
    pub fn type_text(&self, id: TypeId) -> String {
        type_text(&self.types, id, &|_| None)
    }
}

/// A term, the function that holds it, how many variables are in scope at it, and what stands around it.
#[derive(Clone, Debug)]
pub struct Found<'a> {
    pub term: &'a Term,
    pub function: &'a Function,
    pub variables: usize,
    /// The terms that hold it, the nearest first, each with the place of the part that does.
    pub around: Vec<(&'a Term, usize)>,
}

impl<'a> Found<'a> {
    /// The terms that hold it in a part that they bind variables for, the nearest first, each with how many variables are in scope at it.
    fn binders(&self) -> impl Iterator<Item = (&'a Term, usize, usize)> + '_ {
        let mut variables = self.variables;
        self.around.iter().filter_map(move |&(term, place)| {
            variables -= term.bound_before(place);
            (term.bound_before(place) > 0).then_some((term, place, variables))
        })
    }

    /// The same without the places.
    pub fn within(&self) -> impl Iterator<Item = (&'a Term, usize)> + '_ {
        self.binders().map(|(term, _, variables)| (term, variables))
    }

    /// The term that binds a variable in scope, and how many variables are in scope at that term; none for a parameter.
    pub fn bound_by(&self, variable: usize) -> Option<(&'a Term, usize)> {
        self.within().find(|&(_, variables)| variables <= variable)
    }

    /// A variable in scope as the text names it; none where a pattern binds it without a name.
    pub fn name(&self, variable: usize) -> Option<&'a str> {
        if let Some(parameter) = self.function.parameters.get(variable) {
            return Some(&parameter.name);
        }
        let (term, place, variables) = self.binders().find(|&(_, _, variables)| variables <= variable)?;
        let binder = match term.kind {
            TermKind::Case(..) => place - 1,
            _ => variable - variables,
        };
        term.binders.get(binder).map(|binder| &*binder.name).filter(|name| *name != "_")
    }
}

/// Parts come before wholes.
fn nth<'a>(term: &'a Term, variables: usize, left: &mut usize, function: &'a Function) -> Option<Found<'a>> {
    for (place, part) in term.parts().into_iter().enumerate() {
        if let Some(mut found) = nth(part, variables + term.bound_before(place), left, function) {
            found.around.push((term, place));
            return Some(found);
        }
    }
    if *left == 0 {
        return Some(Found { term, function, variables, around: Vec::new() });
    }
    *left -= 1;
    None
}

/// Longer types are cut in messages.
const LONGEST_NODES: usize = 2_000;

/// A type as text; closed types that have a name are written by it.
pub fn type_text(types: &Types, id: TypeId, named: &dyn Fn(TypeId) -> Option<String>) -> String {
    if types.nodes(id) > LONGEST_NODES {
        return "a very large type".to_string();
    }
    Writer { types, named }.sum(id, 0)
}

struct Writer<'a> {
    types: &'a Types,
    named: &'a dyn Fn(TypeId) -> Option<String>,
}

impl Writer<'_> {
    fn sum(&self, id: TypeId, depth: usize) -> String {
        match (self.name(id), self.types.shape(id)) {
            (None, Shape::Sum(left, right)) => format!("{} + {}", self.atom(left, depth), self.sum(right, depth)),
            _ => self.atom(id, depth),
        }
    }

    fn atom(&self, id: TypeId, depth: usize) -> String {
        if let Some(name) = self.name(id) {
            return name;
        }
        match self.types.shape(id) {
            Shape::Unit => "1".to_string(),
            Shape::Bound(skipped) if skipped < depth => variable(depth - 1 - skipped),
            Shape::Bound(skipped) => format!("Free{}", skipped - depth),
            Shape::Variant(number) => self.types.variants[number].name.clone(),
            Shape::Recursive(body) => format!("(rec {}. {})", variable(depth), self.sum(body, depth + 1)),
            Shape::Product(..) => self.tuple(id, depth),
            Shape::Sum(..) => format!("({})", self.sum(id, depth)),
        }
    }

    fn tuple(&self, id: TypeId, depth: usize) -> String {
        let mut parts = Vec::new();
        let mut rest = id;
        while let (Shape::Product(left, right), true) =
            (self.types.shape(rest), rest == id || self.name(rest).is_none())
        {
            parts.push(self.sum(left, depth));
            rest = right;
        }
        parts.push(self.sum(rest, depth));
        format!("({})", parts.join(", "))
    }

    fn name(&self, id: TypeId) -> Option<String> {
        if self.types.closed(id) {
            (self.named)(id)
        } else {
            None
        }
    }
}

/// The variable of the recursive type that so many others enclose.
fn variable(depth: usize) -> String {
    match depth {
        0 => "X".to_string(),
        1 => "Y".to_string(),
        2 => "Z".to_string(),
        _ => format!("X{depth}"),
    }
}
