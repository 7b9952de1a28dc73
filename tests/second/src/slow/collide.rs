//! Where an engine tells long values apart by a fingerprint, values made against it: unequal ones that share theirs.

use super::chain::Chain;
use crate::rng::Rng;
use std::collections::HashMap;

/// A number of a value's bytes, the same for equal values.
pub type Fingerprint = fn(&[u8]) -> u64;

/// The engine's fingerprint, so that colliding tails are made for some of the slow calls; none for an engine that compares
/// values by their nodes alone.
pub const FINGERPRINT: Option<Fingerprint> = Some(byte_of_node);

/// A unit's fingerprint, and the factors of a node's kind and of its parts' fingerprints (crates/valuegraph, specs/Nodes).
const UNIT: u64 = 17;
const KIND: u64 = 59;
const FIRST: u64 = 141;
const SECOND: u64 = 101;

/// The byte that the engine keeps in the node of a value, from the value's prefix bytes.
fn byte_of_node(bytes: &[u8]) -> u64 {
    let mut parts = Vec::new();
    for &kind in bytes.iter().rev() {
        let print = match kind {
            0 => UNIT,
            _ => {
                let first = parts.pop().unwrap_or(0);
                let second = if kind == 3 { parts.pop().unwrap_or(0) } else { 0 };
                (KIND * u64::from(kind) + FIRST * first + SECOND * second) % 256
            }
        };
        parts.push(print);
    }
    parts.pop().unwrap_or(0)
}

/// Tails that are tried, of few bits no more than four times all: enough for a fingerprint of 32 bits, of which some 2^16 random
/// ones hold two alike.
const TRIES: usize = 1 << 18;

/// Two tails of a chain whose values share their fingerprint. Where a node's fingerprint is a function of its parts', the
/// chains that end in them share theirs at every node above.
pub fn colliding(rng: &mut Rng, chain: &Chain, fingerprint: Fingerprint) -> Option<[u32; 2]> {
    let mut seen: HashMap<u64, u32> = HashMap::new();
    for _ in 0..TRIES.min(4 << chain.bits) {
        let tail = chain.random_tail(rng);
        match seen.insert(fingerprint(&chain.tail_bytes(tail)), tail) {
            Some(other) if other != tail => return Some([other, tail]),
            _ => {}
        }
    }
    None
}
