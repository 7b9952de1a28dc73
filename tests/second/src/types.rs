//! Types as trees, each tree stored once: two types are equal exactly if their ids are.
//!
//! Section 1 lets entries share parts, so that a tree may be exponentially larger than its entries. Storing each
//! tree once keeps comparison constant in time, and node counts stop at a ceiling.

use crate::limits::TYPE_NODES;
use std::collections::HashMap;
use std::hash::{BuildHasherDefault, Hasher};

#[derive(Clone, Copy, PartialEq, Eq, Hash, Debug)]
pub struct TypeId(u32);

#[derive(Clone, Copy, PartialEq, Eq, Hash, Debug)]
pub enum Shape {
    Unit,
    Product(TypeId, TypeId),
    Sum(TypeId, TypeId),
    Recursive(TypeId),
    /// Enclosing recursive entries skipped, 0 the nearest.
    Bound(u8),
}

struct Node {
    shape: Shape,
    /// At most `CEILING`, which stands for every larger count.
    nodes: u32,
    /// How many enclosing recursive entries the tree still needs to be closed.
    missing: u32,
    unfolded: Option<TypeId>,
}

const CEILING: u32 = TYPE_NODES + 1;

#[derive(Default)]
pub struct Types {
    nodes: Vec<Node>,
    index: HashMap<Shape, TypeId, BuildHasherDefault<Mix>>,
}

impl Types {
    pub fn intern(&mut self, shape: Shape) -> TypeId {
        if let Some(&id) = self.index.get(&shape) {
            return id;
        }
        let (nodes, missing) = match shape {
            Shape::Unit => (1, 0),
            Shape::Bound(skipped) => (1, skipped as u32 + 1),
            Shape::Recursive(body) => (1 + self.nodes(body), self.missing(body).saturating_sub(1)),
            Shape::Product(a, b) | Shape::Sum(a, b) => {
                (1 + self.nodes(a) + self.nodes(b), self.missing(a).max(self.missing(b)))
            }
        };
        let id = TypeId(self.nodes.len() as u32);
        self.nodes.push(Node { shape, nodes: nodes.min(CEILING), missing, unfolded: None });
        self.index.insert(shape, id);
        id
    }

    pub fn shape(&self, id: TypeId) -> Shape {
        self.node(id).shape
    }

    pub fn closed(&self, id: TypeId) -> bool {
        self.missing(id) == 0
    }

    /// Whether the type, written out as a tree, keeps section 1's limit.
    pub fn within_limit(&self, id: TypeId) -> bool {
        self.nodes(id) <= TYPE_NODES
    }

    /// The body of a closed recursive type with the type itself for its variable; none for other types.
    pub fn unfold(&mut self, id: TypeId) -> Option<TypeId> {
        let Shape::Recursive(body) = self.shape(id) else { return None };
        if self.node(id).unfolded.is_none() {
            let unfolded = self.substitute(body, 0, id);
            self.nodes[id.0 as usize].unfolded = Some(unfolded);
        }
        self.node(id).unfolded
    }

    /// Replaces the variable that skips `depth` entries by a closed type. Closed parts are handed back whole, so the
    /// walk is no longer than the recursive type as it was written.
    fn substitute(&mut self, id: TypeId, depth: u32, with: TypeId) -> TypeId {
        if self.missing(id) <= depth {
            return id;
        }
        let shape = match self.shape(id) {
            Shape::Unit | Shape::Bound(_) => return with,
            Shape::Recursive(body) => Shape::Recursive(self.substitute(body, depth + 1, with)),
            Shape::Product(a, b) => {
                Shape::Product(self.substitute(a, depth, with), self.substitute(b, depth, with))
            }
            Shape::Sum(a, b) => Shape::Sum(self.substitute(a, depth, with), self.substitute(b, depth, with)),
        };
        self.intern(shape)
    }

    fn node(&self, id: TypeId) -> &Node {
        &self.nodes[id.0 as usize]
    }

    fn nodes(&self, id: TypeId) -> u32 {
        self.node(id).nodes
    }

    fn missing(&self, id: TypeId) -> u32 {
        self.node(id).missing
    }
}

/// A shape is three small words; a multiplicative mix is enough and much cheaper than the default hash.
#[derive(Default)]
struct Mix(u64);

impl Hasher for Mix {
    fn finish(&self) -> u64 {
        self.0
    }

    fn write(&mut self, bytes: &[u8]) {
        for &byte in bytes {
            self.write_u64(byte as u64);
        }
    }

    fn write_u8(&mut self, word: u8) {
        self.write_u64(word as u64);
    }

    fn write_u32(&mut self, word: u32) {
        self.write_u64(word as u64);
    }

    fn write_isize(&mut self, word: isize) {
        self.write_u64(word as u64);
    }

    fn write_u64(&mut self, word: u64) {
        self.0 = (self.0.rotate_left(5) ^ word).wrapping_mul(0x9e37_79b9_7f4a_7c15);
    }
}
