//! Random parameters of slow calls, within the limits.

use super::chain::{Chain, Layer, TAIL_BITS};
use super::collide::{colliding, FINGERPRINT};
use super::leaves::{Leaf, Leaves, Rebuilt};
use super::Slow;
use crate::calls::Direction;
use crate::limits::{ANCILLA_BYTES, FUEL, HEIGHT, TERMS, VALUE_BYTES, VARIABLES};
use crate::rng::Rng;
use crate::typing::check;

/// The longest Nat that plus carries without passing the height, and about the longest of all.
const PLUS_DYNAMIC: usize = 255;
const PLUS_ANCILLA: usize = 500;

/// The most that each of two values as long has in a pair.
const HALF_A_PAIR: usize = (VALUE_BYTES - 1) / 2;

/// The most cases around the leaves.
const NESTED: usize = 16;

/// Bytes of the ancillae that are not as long as the value: a bit, and what the nested cases decide on.
const BITS_BESIDE: usize = 2 + NESTED;

pub fn slow(rng: &mut Rng) -> Slow {
    let direction = if rng.chance(65) { Direction::Backward } else { Direction::Forward };
    match rng.below(12) {
        0 => {
            let (ancilla, dynamic) = (rng.below(PLUS_ANCILLA), rng.below(PLUS_DYNAMIC));
            Slow::Plus { direction, ancilla, dynamic: dynamic.min(PLUS_ANCILLA - ancilla) }
        }
        1 => {
            let chain = Chain { layers: layers(rng), bits: 1 };
            let [turns, ancilla_turns] = [0, 1].map(|_| turns(rng, &chain, VALUE_BYTES));
            Slow::Given { direction, ancilla_turns, turns, chain }
        }
        2 => {
            let chain = Chain { layers: layers(rng), bits: TAIL_BITS };
            let tails = if rng.chance(50) { equal(rng, &chain) } else { tails(rng, &chain) };
            Slow::Met { turns: turns(rng, &chain, HALF_A_PAIR), tails, chain }
        }
        3 => Slow::Scope { direction, let_pairs: rng.between(1, (VARIABLES - 1) / 2) },
        _ => Slow::Leaves(leaves(rng, direction)),
    }
}

fn layers(rng: &mut Rng) -> Vec<Layer> {
    const ALL: [Layer; 5] = [Layer::Left, Layer::Right, Layer::Inl, Layer::Inr, Layer::Roll];
    match rng.below(4) {
        0 => Vec::new(),
        1 => vec![*rng.pick(&ALL); rng.between(1, 32)],
        2 => vec![Layer::Left; rng.between(1, 32)],
        _ => (0..rng.between(1, 6)).map(|_| *rng.pick(&ALL)).collect(),
    }
}

/// Most often as many turns as fit.
fn turns(rng: &mut Rng, chain: &Chain, length: usize) -> usize {
    let most = chain.turns_within(length);
    if rng.chance(75) {
        most
    } else {
        rng.between(0, most)
    }
}

fn leaves(rng: &mut Rng, direction: Direction) -> Leaves {
    let bits = *rng.pick(&[1, 1, 2, 8, TAIL_BITS]);
    let mut chain = Chain { layers: layers(rng), bits };
    let rebuilt = *rng.pick(&[Rebuilt::Nothing, Rebuilt::Nothing, Rebuilt::Outermost, Rebuilt::Value]);
    if rebuilt == Rebuilt::Value {
        // Each layer of a copied chain takes up to two variables in scope.
        chain.layers.truncate(6);
    }
    let count = *rng.pick(&[1, 1, 2, 4]);
    let room = (ANCILLA_BYTES - BITS_BESIDE) / count;
    let mut turns = turns(rng, &chain, room);
    if rebuilt == Rebuilt::Value {
        // A copy's turn is as high as its case, its constructors and its call, with two terms a layer.
        turns = turns.min(HEIGHT as usize / (6 + 2 * chain.layers.len()));
    }
    let leaf = match rng.below(4) {
        0 => Leaf::Paired,
        1 => Leaf::Within(rng.between(1, 8).min(turns)),
        _ => Leaf::Whole,
    };
    let [tail, rival] = if leaf == Leaf::Paired { equal(rng, &chain) } else { tails(rng, &chain) };
    let mut rivals = vec![rival; count];
    if leaf != Leaf::Paired && rng.chance(50) {
        rivals[1..].fill_with(|| near(rng, &chain, tail));
    }
    let made = Leaves {
        direction,
        nested: rng.between(1, NESTED),
        leaves: *rng.pick(&[1, 3, 10, 30, 100, 200, 300]),
        leaf,
        chain,
        turns,
        tail,
        rivals,
        rebuilt,
    };
    fitted(made)
}

/// Two tails that differ most often, and little; some of them made to share a fingerprint, if there is one.
fn tails(rng: &mut Rng, chain: &Chain) -> [u32; 2] {
    let tail = chain.random_tail(rng);
    let other = near(rng, chain, tail);
    match FINGERPRINT {
        Some(fingerprint) if rng.chance(50) => colliding(rng, chain, fingerprint).unwrap_or([tail, other]),
        _ => [tail, other],
    }
}

fn near(rng: &mut Rng, chain: &Chain, tail: u32) -> u32 {
    match rng.below(4) {
        0 => tail ^ 1 << (chain.bits - 1),
        1 => exchanged(rng, chain, tail),
        2 => chain.random_tail(rng),
        _ => tail ^ 1,
    }
}

fn equal(rng: &mut Rng, chain: &Chain) -> [u32; 2] {
    [chain.random_tail(rng); 2]
}

/// The same bits in another order, so that as many of each constructor are met.
fn exchanged(rng: &mut Rng, chain: &Chain, tail: u32) -> u32 {
    let [a, b] = [0, 1].map(|_| rng.below(chain.bits as usize));
    let differ = (tail >> a ^ tail >> b) & 1;
    tail ^ (differ << a | differ << b)
}

/// Fewer leaves, then fewer cases, until the program is accepted. A leaf stands beside a case and the case's scrutinee.
fn fitted(mut made: Leaves) -> Leaves {
    made.leaves = made.leaves.min(TERMS / (made.leaf(0).count() + 2)).max(1);
    while check(&made.call(FUEL).program).is_err() {
        if made.leaves > 1 {
            made.leaves = made.leaves * 3 / 4;
        } else {
            made.nested -= 1;
        }
    }
    made
}
