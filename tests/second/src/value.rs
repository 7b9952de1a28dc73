//! Values as shared nodes: a value is an index, its parts are lower indices, its length in bytes is kept beside it.

use crate::limits::VALUE_BYTES;
use crate::types::{Shape, TypeId, Types};

/// The first byte of a value (section 1).
#[derive(Clone, Copy, PartialEq, Eq, Debug)]
#[repr(u8)]
pub enum Kind {
    Unit = 0,
    Inl = 1,
    Inr = 2,
    Pair = 3,
    Roll = 4,
}

impl Kind {
    fn of(byte: u8) -> Option<Kind> {
        [Kind::Unit, Kind::Inl, Kind::Inr, Kind::Pair, Kind::Roll].get(byte as usize).copied()
    }

    fn parts(self) -> usize {
        match self {
            Kind::Unit => 0,
            Kind::Inl | Kind::Inr | Kind::Roll => 1,
            Kind::Pair => 2,
        }
    }
}

pub type NodeId = u32;

/// The one unit node, which every heap has.
pub const UNIT: NodeId = 0;

#[derive(Clone, Copy)]
pub struct Node {
    pub kind: Kind,
    /// Length in bytes. A backward run makes a value of up to two limits before it is refused.
    pub length: u16,
    pub first: NodeId,
    pub second: NodeId,
}

pub struct Heap {
    nodes: Vec<Node>,
}

impl Default for Heap {
    fn default() -> Self {
        Heap { nodes: vec![Node { kind: Kind::Unit, length: 1, first: UNIT, second: UNIT }] }
    }
}

impl Heap {
    pub fn node(&self, id: NodeId) -> Node {
        self.nodes[id as usize]
    }

    pub fn length(&self, id: NodeId) -> usize {
        self.node(id).length as usize
    }

    pub fn fits(&self, id: NodeId) -> bool {
        self.length(id) <= VALUE_BYTES
    }

    pub fn wrap(&mut self, kind: Kind, part: NodeId) -> NodeId {
        let length = 1 + self.node(part).length;
        self.push(Node { kind, length, first: part, second: UNIT })
    }

    pub fn pair(&mut self, first: NodeId, second: NodeId) -> NodeId {
        let length = 1 + self.node(first).length + self.node(second).length;
        self.push(Node { kind: Kind::Pair, length, first, second })
    }

    fn push(&mut self, node: Node) -> NodeId {
        self.nodes.push(node);
        (self.nodes.len() - 1) as NodeId
    }

    pub fn equal(&self, mut left: NodeId, mut right: NodeId) -> bool {
        loop {
            if left == right {
                return true;
            }
            let (a, b) = (self.node(left), self.node(right));
            if a.kind != b.kind || a.length != b.length {
                return false;
            }
            match a.kind {
                Kind::Unit => return true,
                Kind::Inl | Kind::Inr | Kind::Roll => (left, right) = (a.first, b.first),
                Kind::Pair => {
                    if !self.equal(a.first, b.first) {
                        return false;
                    }
                    (left, right) = (a.second, b.second);
                }
            }
        }
    }

    /// Takes the bytes of exactly one value, as `value_length` found it. From the last byte to the first each part is
    /// complete before the constructor that takes it, so that no recursion is needed.
    pub fn load(&mut self, bytes: &[u8]) -> NodeId {
        let mut done: Vec<NodeId> = Vec::new();
        let take = |done: &mut Vec<NodeId>| done.pop().expect("bytes of one whole value");
        for &byte in bytes.iter().rev() {
            let id = match Kind::of(byte).expect("bytes of one whole value") {
                Kind::Unit => UNIT,
                Kind::Pair => {
                    let first = take(&mut done);
                    let second = take(&mut done);
                    self.pair(first, second)
                }
                kind => {
                    let part = take(&mut done);
                    self.wrap(kind, part)
                }
            };
            done.push(id);
        }
        take(&mut done)
    }

    pub fn store(&self, id: NodeId) -> Vec<u8> {
        let mut bytes = Vec::with_capacity(self.length(id));
        let mut pending = vec![id];
        while let Some(id) = pending.pop() {
            let node = self.node(id);
            bytes.push(node.kind as u8);
            if node.kind == Kind::Pair {
                pending.push(node.second);
            }
            if node.kind != Kind::Unit {
                pending.push(node.first);
            }
        }
        bytes
    }

    /// Whether a value has a closed type. Each unfolding is answered by a constructor of the value, so this ends even
    /// where a type unfolds to itself.
    pub fn has_type(&self, id: NodeId, expected: TypeId, types: &mut Types) -> bool {
        let mut pending = vec![(id, expected)];
        while let Some((id, expected)) = pending.pop() {
            let node = self.node(id);
            match (node.kind, types.shape(expected)) {
                (Kind::Unit, Shape::Unit) => {}
                (Kind::Inl, Shape::Sum(left, _)) => pending.push((node.first, left)),
                (Kind::Inr, Shape::Sum(_, right)) => pending.push((node.first, right)),
                (Kind::Pair, Shape::Product(left, right)) => {
                    pending.push((node.second, right));
                    pending.push((node.first, left));
                }
                (Kind::Roll, Shape::Recursive(_)) => {
                    let unfolded = types.unfold(expected).expect("a recursive type unfolds");
                    pending.push((node.first, unfolded));
                }
                _ => return false,
            }
        }
        true
    }
}

/// Length of the value that starts the bytes; none if they are malformed or end before it does.
pub fn value_length(bytes: &[u8]) -> Option<usize> {
    let mut pending = 1;
    for (at, &byte) in bytes.iter().enumerate() {
        pending += Kind::of(byte)?.parts();
        pending -= 1;
        if pending == 0 {
            return Some(at + 1);
        }
    }
    None
}

/// Whether the bytes are exactly one value within section 1's limit.
pub fn one_value(bytes: &[u8]) -> bool {
    bytes.len() <= VALUE_BYTES && value_length(bytes) == Some(bytes.len())
}

/// Splits bytes into whole values; none if something is malformed or left over.
pub fn whole_values(mut bytes: &[u8]) -> Option<Vec<&[u8]>> {
    let mut values = Vec::new();
    while !bytes.is_empty() {
        let (value, rest) = bytes.split_at(value_length(bytes)?);
        values.push(value);
        bytes = rest;
    }
    Some(values)
}
