//! Chains: values that are long and alike. A chain has turns, all of the same layers, and at their end a tail of bits. Two
//! chains of as many turns differ in their tails alone.

use crate::draft::*;
use crate::rng::Rng;

/// What stands around the rest of a chain. The other part of a pair, and of a sum's type, is unit.
#[derive(Clone, Copy, PartialEq, Eq, Debug)]
pub enum Layer {
    Left,
    Right,
    Inl,
    Inr,
    Roll,
}

/// The layers of a turn, the outermost first, and how many bits a tail has.
#[derive(Clone, PartialEq, Eq, Debug)]
pub struct Chain {
    pub layers: Vec<Layer>,
    pub bits: u32,
}

/// The most bits of a tail.
pub const TAIL_BITS: u32 = 32;

impl Layer {
    fn ty(self, inner: &Type) -> Type {
        match self {
            Layer::Left => product(inner, &unit_type()),
            Layer::Right => product(&unit_type(), inner),
            Layer::Inl => sum(inner, &unit_type()),
            Layer::Inr => sum(&unit_type(), inner),
            Layer::Roll => recursive(inner),
        }
    }

    /// The bytes before and behind the rest.
    fn bytes(self) -> (&'static [u8], &'static [u8]) {
        match self {
            Layer::Left => (&[3], &[0]),
            Layer::Right => (&[3, 0], &[]),
            Layer::Inl => (&[1], &[]),
            Layer::Inr => (&[2], &[]),
            Layer::Roll => (&[4], &[]),
        }
    }

    /// The layer of a closed type around a term.
    fn around(self, ty: &Type, rest: Term) -> Term {
        match self {
            Layer::Left => pair(rest, Term::Unit),
            Layer::Right => pair(Term::Unit, rest),
            Layer::Inl => inl(ty, rest),
            Layer::Inr => inr(ty, rest),
            Layer::Roll => roll(ty, rest),
        }
    }
}

impl Chain {
    /// rec X. tail + (the layers around X). Each roll among the layers is one recursive entry more that X skips.
    pub fn ty(&self) -> Type {
        let rolls = self.layers.iter().filter(|&&layer| layer == Layer::Roll).count();
        let tail = (1..self.bits).fold(boolean(), |tail, _| product(&boolean(), &tail));
        recursive(&sum(&tail, &layered(&self.layers, &bound(rolls as u8))))
    }

    /// The bits of a tail stand from the highest to the lowest, which is the last.
    pub fn tail_bytes(&self, tail: u32) -> Vec<u8> {
        let mut bytes = Vec::new();
        for at in (0..self.bits).rev() {
            if at > 0 {
                bytes.push(3);
            }
            bytes.extend([1 + (tail >> at & 1) as u8, 0]);
        }
        bytes
    }

    pub fn random_tail(&self, rng: &mut Rng) -> u32 {
        rng.word() as u32 >> (TAIL_BITS - self.bits)
    }

    pub fn bytes(&self, turns: usize, tail: u32) -> Vec<u8> {
        let before = self.layers.iter().flat_map(|layer| layer.bytes().0).copied();
        let behind = self.layers.iter().rev().flat_map(|layer| layer.bytes().1).copied();
        let turn: Vec<u8> = [4, 2].into_iter().chain(before).collect();
        let rest: Vec<u8> = behind.collect();
        [turn.repeat(turns), vec![4, 1], self.tail_bytes(tail), rest.repeat(turns)].concat()
    }

    /// How many turns a chain of at most so many bytes has.
    pub fn turns_within(&self, length: usize) -> usize {
        let (none, one) = (self.bytes(0, 0).len(), self.bytes(1, 0).len());
        length.saturating_sub(none) / (one - none)
    }

    /// So many turns around a chain.
    pub fn around(&self, turns: usize, rest: Term) -> Term {
        let ty = self.ty();
        let outer = |at: usize| layered(&self.layers[at..], &ty);
        (0..turns).fold(rest, |rest, _| {
            let layers = self.layers.iter().enumerate().rev();
            let turn = layers.fold(rest, |rest, (at, layer)| layer.around(&outer(at), rest));
            roll(&ty, inr(&unfold(&ty), turn))
        })
    }

    /// The chain that it is given, every node built anew.
    pub fn copying(&self, itself: usize) -> Function {
        let ty = self.ty();
        let opened = unfold(&ty);
        let again = self.copied(0, variable(1), 2, itself);
        let body =
            case(unroll(&ty, variable(0)), roll(&ty, inl(&opened, variable(1))), roll(&ty, inr(&opened, again)));
        Function { parameters: vec![ty.clone()], result: ty, body }
    }

    /// What stands from layer `at` on, taken apart and put together again.
    fn copied(&self, at: usize, given: Term, in_scope: usize, itself: usize) -> Term {
        let Some(layer) = self.layers.get(at) else { return call(itself, vec![given]) };
        let ty = layered(&self.layers[at..], &self.ty());
        let [first, second] = [in_scope, in_scope + 1].map(variable);
        let rest = |rest: Term, in_scope: usize| self.copied(at + 1, rest, in_scope, itself);
        match layer {
            Layer::Left => let_pair(given, pair(rest(first, in_scope + 2), second)),
            Layer::Right => let_pair(given, pair(first, rest(second, in_scope + 2))),
            Layer::Inl => case(given, inl(&ty, rest(first.clone(), in_scope + 1)), inr(&ty, first)),
            Layer::Inr => case(given, inl(&ty, first.clone()), inr(&ty, rest(first, in_scope + 1))),
            Layer::Roll => roll(&ty, rest(unroll(&ty, given), in_scope)),
        }
    }
}

fn layered(layers: &[Layer], inner: &Type) -> Type {
    layers.iter().rev().fold(inner.clone(), |inner, layer| layer.ty(&inner))
}
