//! Declared types: other names for types, and variants (section 4.1 of the paper). Declarations may stand in any order.

use crate::core::types::{Alternative, Shape, TypeId, Types, Variant};
use crate::text::mistake::nearest;
use crate::text::tree::{self, Name, TypeBody, TypeDeclaration, TypeExpr, TypeKind};
use crate::text::Mistake;
use std::collections::{HashMap, HashSet};

#[derive(Clone, Copy)]
enum State<'a> {
    Open(&'a TypeExpr),
    /// On the way: met again, it would be a type inside itself.
    Begun,
    Known(TypeId),
}

pub struct Declared<'a> {
    pub types: Types,
    names: HashMap<String, State<'a>>,
}

/// All mistakes of the declarations, or what they declare.
pub fn declare(declarations: &[TypeDeclaration]) -> Result<Declared<'_>, Vec<Mistake>> {
    let mut declared = Declared { types: Types::default(), names: HashMap::new() };
    let mut mistakes = duplicates(declarations);
    let variants = declared.name_all(declarations);
    for (number, declaration, alternatives) in variants {
        if let Err(mistake) = declared.fill(number, declaration, &alternatives) {
            mistakes.push(mistake);
        }
    }
    for declaration in declarations {
        if let TypeBody::Alias(ty) | TypeBody::Either(_, ty) = &declaration.body {
            mistakes.extend(declared.named(&declaration.name.text, ty).err());
        }
    }
    if mistakes.is_empty() {
        mistakes.extend(declared.knots(declarations));
    }
    if mistakes.is_empty() {
        Ok(declared)
    } else {
        Err(mistakes)
    }
}

/// A variant's number, its declaration and its alternatives.
type Opened<'a> = (usize, &'a TypeDeclaration, Vec<tree::Alternative>);

impl<'a> Declared<'a> {
    /// Gives every type its name; variants have their numbers, and no bodies yet.
    fn name_all(&mut self, declarations: &'a [TypeDeclaration]) -> Vec<Opened<'a>> {
        let names: HashSet<&str> = declarations.iter().map(|declaration| declaration.name.text.as_str()).collect();
        let unit = self.types.unit();
        let mut variants = Vec::new();
        for declaration in declarations {
            let name = declaration.name.text.clone();
            let state = match body(declaration, &names) {
                Body::Alias(ty) => State::Open(ty),
                Body::Variant(alternatives) => {
                    let number = self.types.variants.len();
                    let (body, recursive) = (unit, false);
                    self.types.variants.push(Variant {
                        name: name.clone(),
                        alternatives: Vec::new(),
                        body,
                        recursive,
                    });
                    variants.push((number, declaration, alternatives));
                    State::Known(self.types.intern(Shape::Variant(number)))
                }
            };
            self.names.insert(name, state);
        }
        variants
    }
}

impl Declared<'_> {
    fn fill(
        &mut self,
        number: usize,
        declaration: &TypeDeclaration,
        alternatives: &[tree::Alternative],
    ) -> Result<(), Mistake> {
        let mut filled = Vec::new();
        for alternative in alternatives {
            if let Some((other, _)) = self.types.alternative(&alternative.name.text) {
                return Err(repeated(&alternative.name, &self.types.variants[other].name));
            }
            let parts = alternative.parts.iter().map(|part| self.resolve(part)).collect::<Result<Vec<_>, _>>()?;
            filled.push(Alternative { name: alternative.name.text.clone(), parts });
        }
        if let Some(name) = twice(alternatives) {
            return Err(repeated(name, &declaration.name.text));
        }
        let payloads: Vec<TypeId> = filled.iter().map(|alternative| self.payload(&alternative.parts)).collect();
        let sum = |types: &mut Types, rest, part| types.sum(part, rest);
        let unit = self.types.unit();
        let body =
            payloads.into_iter().rev().reduce(|rest, part| sum(&mut self.types, rest, part)).unwrap_or(unit);
        let recursive = self.mentioned(body).contains(&number);
        let variant = &mut self.types.variants[number];
        (variant.alternatives, variant.body, variant.recursive) = (filled, body, recursive);
        Ok(())
    }

    /// No part is unit, one is itself, more are a product.
    fn payload(&mut self, parts: &[TypeId]) -> TypeId {
        let unit = self.types.unit();
        parts.iter().copied().rev().reduce(|rest, part| self.types.product(part, rest)).unwrap_or(unit)
    }

    /// A type expression outside of any recursive type.
    pub fn resolve(&mut self, ty: &TypeExpr) -> Result<TypeId, Mistake> {
        self.resolve_under(ty, &mut Vec::new())
    }

    fn resolve_under(&mut self, ty: &TypeExpr, bound: &mut Vec<String>) -> Result<TypeId, Mistake> {
        match &ty.kind {
            TypeKind::Unit => Ok(self.types.unit()),
            TypeKind::Product(a, b) => {
                let (a, b) = (self.resolve_under(a, bound)?, self.resolve_under(b, bound)?);
                Ok(self.types.product(a, b))
            }
            TypeKind::Sum(a, b) => {
                let (a, b) = (self.resolve_under(a, bound)?, self.resolve_under(b, bound)?);
                Ok(self.types.sum(a, b))
            }
            TypeKind::Rec(name, inner) => {
                bound.push(name.text.clone());
                let inner = self.resolve_under(inner, bound);
                bound.pop();
                inner.map(|inner| self.types.intern(Shape::Recursive(inner)))
            }
            TypeKind::Name(name) => match bound.iter().rev().position(|variable| variable == name) {
                Some(skipped) => Ok(self.types.intern(Shape::Bound(skipped))),
                None => self.named(name, ty),
            },
        }
    }

    fn named(&mut self, name: &str, at: &TypeExpr) -> Result<TypeId, Mistake> {
        match self.names.get(name).copied() {
            Some(State::Known(id)) => Ok(id),
            Some(State::Open(ty)) => {
                self.names.insert(name.to_string(), State::Begun);
                let id = self.resolve(ty)?;
                self.names.insert(name.to_string(), State::Known(id));
                Ok(id)
            }
            Some(State::Begun) => Err(Mistake::new(at.span, format!("{name} would stand inside itself"))
                .help("give it alternatives, as in type List = Nil | Cons Nat List, or write rec X. ..")),
            None => Err(self.unknown(name, at)),
        }
    }

    fn unknown(&self, name: &str, at: &TypeExpr) -> Mistake {
        let mistake = Mistake::new(at.span, format!("no type is named {name}"));
        match nearest(name, self.names.keys().map(String::as_str)) {
            Some(near) => mistake.help(format!("did you mean {near}?")),
            None => mistake.help(format!("declare it: type {name} = ..")),
        }
    }

    /// The variants that a type mentions without looking into their bodies.
    fn mentioned(&self, id: TypeId) -> HashSet<usize> {
        let (mut seen, mut left, mut found) = (HashSet::new(), vec![id], HashSet::new());
        while let Some(id) = left.pop() {
            if !seen.insert(id) {
                continue;
            }
            match self.types.shape(id) {
                Shape::Unit | Shape::Bound(_) => (),
                Shape::Product(a, b) | Shape::Sum(a, b) => left.extend([a, b]),
                Shape::Recursive(inner) => left.push(inner),
                Shape::Variant(number) => {
                    found.insert(number);
                }
            }
        }
        found
    }

    /// A variant may name itself; two that name each other have no core type by the paper's translation.
    fn knots(&self, declarations: &[TypeDeclaration]) -> Option<Mistake> {
        let mentions: Vec<HashSet<usize>> =
            self.types.variants.iter().map(|variant| self.mentioned(variant.body)).collect();
        let reaches = |from: usize, to: usize| {
            let (mut seen, mut left) = (HashSet::from([from]), vec![from]);
            while let Some(at) = left.pop() {
                left.extend(mentions[at].iter().copied().filter(|&next| seen.insert(next)));
            }
            from != to && seen.contains(&to)
        };
        let count = mentions.len();
        let knot = (0..count).find_map(|a| (0..a).find(|&b| reaches(a, b) && reaches(b, a)).map(|b| (b, a)))?;
        let name = |number: usize| self.types.variants[number].name.clone();
        let at = declarations.iter().find(|declaration| declaration.name.text == name(knot.1))?;
        let what = format!("{} and {} name each other", name(knot.0), name(knot.1));
        Some(Mistake::new(at.name.span, what).help("a type may name itself and types that do not name it"))
    }
}

enum Body<'a> {
    Alias(&'a TypeExpr),
    Variant(Vec<tree::Alternative>),
}

fn body<'a>(declaration: &'a TypeDeclaration, names: &HashSet<&str>) -> Body<'a> {
    match &declaration.body {
        TypeBody::Alias(ty) => Body::Alias(ty),
        TypeBody::Variant(alternatives) => Body::Variant(alternatives.clone()),
        TypeBody::Either(name, ty) if names.contains(name.text.as_str()) && name.text != declaration.name.text => {
            Body::Alias(ty)
        }
        TypeBody::Either(name, _) => {
            Body::Variant(vec![tree::Alternative { name: name.clone(), parts: Vec::new() }])
        }
    }
}

fn duplicates(declarations: &[TypeDeclaration]) -> Vec<Mistake> {
    let mut first: HashMap<&str, &Name> = HashMap::new();
    let mut mistakes = Vec::new();
    for declaration in declarations {
        let name = &declaration.name;
        match first.get(name.text.as_str()) {
            Some(before) => mistakes.push(
                Mistake::new(name.span, format!("the type {} is declared twice", name.text))
                    .note(before.span, "here first"),
            ),
            None => {
                first.insert(&name.text, name);
            }
        }
    }
    mistakes
}

fn twice(alternatives: &[tree::Alternative]) -> Option<&Name> {
    let mut seen = HashSet::new();
    alternatives.iter().map(|alternative| &alternative.name).find(|name| !seen.insert(name.text.as_str()))
}

fn repeated(name: &Name, variant: &str) -> Mistake {
    Mistake::new(name.span, format!("{} is an alternative of {variant} already", name.text))
        .help("every alternative has a name of its own")
}
