//! Types, each stored once. A type may name declared variants; its structural form has none and is what the engine sees. Two types
//! are equal exactly if their structural forms are the same entry of the store.

use std::collections::HashMap;

#[derive(Clone, Copy, PartialEq, Eq, Hash, PartialOrd, Ord, Debug)]
pub struct TypeId(u32);

#[derive(Clone, Copy, PartialEq, Eq, Hash, Debug)]
pub enum Shape {
    Unit,
    Product(TypeId, TypeId),
    Sum(TypeId, TypeId),
    Recursive(TypeId),
    /// Enclosing recursive types skipped, 0 the nearest.
    Bound(usize),
    /// A declared variant, by its number.
    Variant(usize),
}

/// What a term or value of the type looks like from outside.
#[derive(Clone, Copy, PartialEq, Eq, Debug)]
pub enum View {
    Unit,
    Product(TypeId, TypeId),
    Sum(TypeId, TypeId),
    /// A recursive type, with its unfolding.
    Fold(TypeId),
    /// A bound variable by itself, which no term has.
    Open,
}

#[derive(Clone, Debug)]
pub struct Alternative {
    pub name: String,
    pub parts: Vec<TypeId>,
}

#[derive(Clone, Debug)]
pub struct Variant {
    pub name: String,
    pub alternatives: Vec<Alternative>,
    /// The sum of the alternatives; the variant itself stands in it by its number.
    pub body: TypeId,
    pub recursive: bool,
}

/// Counts stop here, since written out a type may be exponentially large.
const MOST_NODES: usize = 1 << 20;

#[derive(Clone, Debug, Default)]
pub struct Types {
    shapes: Vec<Shape>,
    index: HashMap<Shape, TypeId>,
    structural: HashMap<TypeId, TypeId>,
    /// How many enclosing recursive types each entry still needs to be closed.
    missing: Vec<usize>,
    nodes: Vec<usize>,
    pub variants: Vec<Variant>,
}

impl Types {
    pub fn intern(&mut self, shape: Shape) -> TypeId {
        if let Some(&id) = self.index.get(&shape) {
            return id;
        }
        let (missing, nodes) = match shape {
            Shape::Unit | Shape::Variant(_) => (0, 1),
            Shape::Bound(skipped) => (skipped + 1, 1),
            Shape::Recursive(body) => (self.missing(body).saturating_sub(1), 1 + self.nodes(body)),
            Shape::Product(a, b) | Shape::Sum(a, b) => {
                (self.missing(a).max(self.missing(b)), 1 + self.nodes(a) + self.nodes(b))
            }
        };
        let id = TypeId(self.shapes.len() as u32);
        self.shapes.push(shape);
        self.missing.push(missing);
        self.nodes.push(nodes.min(MOST_NODES));
        self.index.insert(shape, id);
        id
    }

    pub fn shape(&self, id: TypeId) -> Shape {
        self.shapes[id.0 as usize]
    }

    pub fn closed(&self, id: TypeId) -> bool {
        self.missing(id) == 0
    }

    /// Nodes of the type written out as a tree, up to a ceiling; a variant counts as one.
    pub fn nodes(&self, id: TypeId) -> usize {
        self.nodes[id.0 as usize]
    }

    fn missing(&self, id: TypeId) -> usize {
        self.missing[id.0 as usize]
    }

    pub fn unit(&mut self) -> TypeId {
        self.intern(Shape::Unit)
    }

    pub fn product(&mut self, left: TypeId, right: TypeId) -> TypeId {
        self.intern(Shape::Product(left, right))
    }

    pub fn sum(&mut self, left: TypeId, right: TypeId) -> TypeId {
        self.intern(Shape::Sum(left, right))
    }

    /// Numbers in ones: rec X. 1 + X.
    pub fn nat(&mut self) -> TypeId {
        let (unit, bound) = (self.unit(), self.intern(Shape::Bound(0)));
        let sum = self.sum(unit, bound);
        self.intern(Shape::Recursive(sum))
    }

    /// The declared variant that is numbers in ones, if there is one.
    pub fn declared_nat(&mut self) -> TypeId {
        let recursive =
            (0..self.variants.len()).filter(|&number| self.variants[number].recursive).collect::<Vec<_>>();
        let declared = recursive.into_iter().map(|number| self.intern(Shape::Variant(number))).collect::<Vec<_>>();
        declared.into_iter().find(|&ty| self.is_nat(ty)).unwrap_or_else(|| self.nat())
    }

    pub fn is_nat(&mut self, id: TypeId) -> bool {
        let nat = self.nat();
        self.structural(id) == nat
    }

    pub fn equal(&mut self, left: TypeId, right: TypeId) -> bool {
        self.structural(left) == self.structural(right)
    }

    pub fn view(&mut self, id: TypeId) -> View {
        match self.shape(id) {
            Shape::Unit => View::Unit,
            Shape::Product(a, b) => View::Product(a, b),
            Shape::Sum(a, b) => View::Sum(a, b),
            Shape::Bound(_) => View::Open,
            Shape::Recursive(body) => View::Fold(self.substitute(body, 0, id, &mut HashMap::new())),
            Shape::Variant(number) => match &self.variants[number] {
                Variant { recursive: true, body, .. } => View::Fold(*body),
                Variant { body, .. } => self.view(*body),
            },
        }
    }

    /// A closed type for the variable that skips `depth` recursive types.
    fn substitute(
        &mut self,
        id: TypeId,
        depth: usize,
        with: TypeId,
        known: &mut HashMap<(TypeId, usize), TypeId>,
    ) -> TypeId {
        if self.missing(id) <= depth {
            return id;
        }
        if let Some(&done) = known.get(&(id, depth)) {
            return done;
        }
        let done = match self.shape(id) {
            Shape::Bound(skipped) if skipped == depth => with,
            Shape::Recursive(body) => {
                let body = self.substitute(body, depth + 1, with, known);
                self.intern(Shape::Recursive(body))
            }
            Shape::Product(a, b) => {
                let (a, b) = (self.substitute(a, depth, with, known), self.substitute(b, depth, with, known));
                self.product(a, b)
            }
            Shape::Sum(a, b) => {
                let (a, b) = (self.substitute(a, depth, with, known), self.substitute(b, depth, with, known));
                self.sum(a, b)
            }
            _ => id,
        };
        known.insert((id, depth), done);
        done
    }

    /// The same type without variants.
    pub fn structural(&mut self, id: TypeId) -> TypeId {
        if let Some(&known) = self.structural.get(&id) {
            return known;
        }
        let done = match self.shape(id) {
            Shape::Unit | Shape::Bound(_) => id,
            Shape::Product(a, b) => {
                let (a, b) = (self.structural(a), self.structural(b));
                self.product(a, b)
            }
            Shape::Sum(a, b) => {
                let (a, b) = (self.structural(a), self.structural(b));
                self.sum(a, b)
            }
            Shape::Recursive(body) => {
                let body = self.structural(body);
                self.intern(Shape::Recursive(body))
            }
            Shape::Variant(number) => self.structural_variant(number),
        };
        self.structural.insert(id, done);
        done
    }

    fn structural_variant(&mut self, number: usize) -> TypeId {
        let Variant { body, recursive, .. } = self.variants[number];
        if !recursive {
            return self.structural(body);
        }
        let tied = self.tie(body, number, 0, &mut HashMap::new());
        let folded = self.intern(Shape::Recursive(tied));
        self.structural(folded)
    }

    /// The body of a recursive variant with a bound variable for the variant itself.
    fn tie(
        &mut self,
        id: TypeId,
        number: usize,
        depth: usize,
        known: &mut HashMap<(TypeId, usize), TypeId>,
    ) -> TypeId {
        if let Some(&done) = known.get(&(id, depth)) {
            return done;
        }
        let done = match self.shape(id) {
            Shape::Variant(other) if other == number => self.intern(Shape::Bound(depth)),
            Shape::Unit | Shape::Bound(_) | Shape::Variant(_) => id,
            Shape::Recursive(body) => {
                let body = self.tie(body, number, depth + 1, known);
                self.intern(Shape::Recursive(body))
            }
            Shape::Product(a, b) => {
                let (a, b) = (self.tie(a, number, depth, known), self.tie(b, number, depth, known));
                self.product(a, b)
            }
            Shape::Sum(a, b) => {
                let (a, b) = (self.tie(a, number, depth, known), self.tie(b, number, depth, known));
                self.sum(a, b)
            }
        };
        known.insert((id, depth), done);
        done
    }

    /// The alternative of this name, with its variant's number and its own.
    pub fn alternative(&self, name: &str) -> Option<(usize, usize)> {
        self.variants.iter().enumerate().find_map(|(number, variant)| {
            variant
                .alternatives
                .iter()
                .position(|alternative| alternative.name == name)
                .map(|index| (number, index))
        })
    }
}

#[cfg(test)]
mod tests {
    use super::*;

    #[test]
    fn a_recursive_variant_is_its_recursive_type() {
        let mut types = Types::default();
        let own = types.intern(Shape::Variant(0));
        let unit = types.unit();
        let body = types.sum(unit, own);
        types.variants.push(Variant { name: "Nat".into(), alternatives: Vec::new(), body, recursive: true });
        assert!(types.is_nat(own));
        let nat = types.nat();
        let (View::Fold(unfolded), View::Fold(other)) = (types.view(nat), types.view(own)) else { panic!() };
        assert!(types.equal(unfolded, other));
    }
}
