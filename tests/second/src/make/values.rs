//! Random values of a type, near misses, and all small values.

use super::types::{left_is_smaller, smallest};
use crate::draft::{unfold, Type, TypeTree};
use crate::limits::VALUE_BYTES;
use crate::rng::Rng;
use crate::value::value_length;

/// Bytes of a value of the type; beyond `budget` bytes the smallest parts are chosen. A type without values gets unit.
pub fn random_value(rng: &mut Rng, ty: &Type, budget: usize) -> Vec<u8> {
    value_with(rng, ty, budget, 70)
}

/// Like `random_value`, but while there is budget a choice that ends a recursion is rare or never made.
fn grown_value(rng: &mut Rng, ty: &Type, budget: usize) -> Vec<u8> {
    let percent = if rng.chance(70) { 100 } else { 99 };
    value_with(rng, ty, budget, percent)
}

/// While there is budget, the larger side of a sum, the one that recurs, is taken `percent` times in a hundred.
fn value_with(rng: &mut Rng, ty: &Type, budget: usize, percent: usize) -> Vec<u8> {
    if smallest(ty).is_none() {
        return vec![0];
    }
    let mut bytes = Vec::new();
    let mut pending = vec![ty.clone()];
    while let Some(ty) = pending.pop() {
        let grow = bytes.len() < budget;
        match &*ty {
            TypeTree::Unit | TypeTree::Bound(_) => bytes.push(0),
            TypeTree::Product(a, b) => {
                bytes.push(3);
                pending.extend([b.clone(), a.clone()]);
            }
            TypeTree::Sum(a, b) => {
                let both = smallest(a).is_some() && smallest(b).is_some();
                let left = left_is_smaller(a, b);
                let left = if grow && both && rng.chance(percent) { !left } else { left };
                bytes.push(if left { 1 } else { 2 });
                pending.push(if left { a.clone() } else { b.clone() });
            }
            TypeTree::Recursive(_) => {
                bytes.push(4);
                pending.push(unfold(&ty));
            }
        }
    }
    bytes
}

/// A value of the type within the limit, most often small, at times as long as can be.
pub fn typical_value(rng: &mut Rng, ty: &Type) -> Vec<u8> {
    loop {
        let budget = match rng.below(20) {
            0 => rng.between(900, VALUE_BYTES),
            1 => rng.below(300),
            _ => rng.below(24),
        };
        let value = random_value(rng, ty, budget);
        if value.len() <= VALUE_BYTES {
            return value;
        }
    }
}

/// A value of the type as near to the limit as a few tries come.
pub fn long_value(rng: &mut Rng, ty: &Type) -> Vec<u8> {
    let tries: Vec<Vec<u8>> = (0..8)
        .map(|_| {
            let budget = rng.between(VALUE_BYTES - 40, VALUE_BYTES);
            grown_value(rng, ty, budget)
        })
        .collect();
    let longest = tries.into_iter().filter(|value| value.len() <= VALUE_BYTES).max_by_key(Vec::len);
    longest.unwrap_or_else(|| typical_value(rng, ty))
}

/// A well-formed value that differs from the given one in one constructor, a part, or a layer.
pub fn near_miss(rng: &mut Rng, value: &[u8]) -> Vec<u8> {
    let mut bytes = value.to_vec();
    if bytes.is_empty() {
        return bytes;
    }
    let at = rng.below(bytes.len());
    let part = at + value_length(&bytes[at..]).unwrap_or(1);
    match rng.below(4) {
        0 => bytes[at] = exchanged(bytes[at]),
        1 => {
            let injections: Vec<usize> = (0..bytes.len()).filter(|&at| matches!(bytes[at], 1 | 2)).collect();
            if let Some(&at) = injections.get(rng.below(injections.len())) {
                bytes[at] = exchanged(bytes[at]);
            }
        }
        2 => drop(bytes.splice(at..part, [4, 2, 4, 1, 0])),
        _ => drop(bytes.splice(at..part, [rng.between(1, 2) as u8, 0])),
    }
    bytes
}

/// Another value of the same type: one part of the given value is put anew.
pub fn typed_near_miss(rng: &mut Rng, ty: &Type, value: &[u8]) -> Vec<u8> {
    let parts = typed_parts(ty, value);
    let Some((at, ty)) = parts.get(rng.below(parts.len())) else { return value.to_vec() };
    let end = at + value_length(&value[*at..]).unwrap_or(1);
    let budget = rng.below(12);
    [&value[..*at], &random_value(rng, ty, budget), &value[end..]].concat()
}

/// Offset and type of every part of a value, as far as the value has its type.
fn typed_parts(ty: &Type, value: &[u8]) -> Vec<(usize, Type)> {
    let mut parts = Vec::new();
    let mut pending = vec![ty.clone()];
    for (at, &byte) in value.iter().enumerate() {
        let Some(ty) = pending.pop() else { break };
        match (&*ty, byte) {
            (TypeTree::Product(a, b), 3) => pending.extend([b.clone(), a.clone()]),
            (TypeTree::Sum(a, _), 1) => pending.push(a.clone()),
            (TypeTree::Sum(_, b), 2) => pending.push(b.clone()),
            (TypeTree::Recursive(_), 4) => pending.push(unfold(&ty)),
            (TypeTree::Unit, 0) => {}
            _ => break,
        }
        parts.push((at, ty));
    }
    parts
}

fn exchanged(byte: u8) -> u8 {
    match byte {
        1 => 2,
        2 => 1,
        4 => 1,
        other => other,
    }
}

/// Bytes that are no value, or too many, or too few.
pub fn malformed(rng: &mut Rng, value: &[u8]) -> Vec<u8> {
    let mut bytes = value.to_vec();
    match rng.below(6) {
        0 => bytes.push(rng.below(6) as u8),
        1 => drop(bytes.pop()),
        2 => bytes.clear(),
        3 => bytes.truncate(rng.below(bytes.len())),
        4 if !bytes.is_empty() => {
            let at = rng.below(bytes.len());
            bytes[at] = rng.between(5, 255) as u8;
        }
        _ => bytes = beyond_limit(rng),
    }
    bytes
}

/// A well-formed value one or a few bytes over the limit.
fn beyond_limit(rng: &mut Rng) -> Vec<u8> {
    let mut bytes = vec![4; VALUE_BYTES + rng.below(3)];
    bytes.push(0);
    bytes
}

/// All values of a type up to a length, at most `most` of them.
pub fn small_values(ty: &Type, length: usize, most: usize) -> Vec<Vec<u8>> {
    if length == 0 || smallest(ty).is_none_or(|size| size > length) {
        return Vec::new();
    }
    let prefixed =
        |byte: u8, values: Vec<Vec<u8>>| values.into_iter().map(move |value| [&[byte], &value[..]].concat());
    let mut values: Vec<Vec<u8>> = match &**ty {
        TypeTree::Unit => vec![vec![0]],
        TypeTree::Bound(_) => vec![],
        TypeTree::Sum(a, b) => {
            let left = prefixed(1, small_values(a, length - 1, most));
            left.chain(prefixed(2, small_values(b, length - 1, most))).collect()
        }
        TypeTree::Product(a, b) => {
            let lefts = small_values(a, length - 1, most);
            let pairs = lefts.iter().flat_map(|left| {
                let rights = small_values(b, length - 1 - left.len(), most);
                rights.into_iter().map(move |right| [&[3], &left[..], &right].concat())
            });
            pairs.take(most).collect()
        }
        TypeTree::Recursive(_) => prefixed(4, small_values(&unfold(ty), length - 1, most)).collect(),
    };
    values.sort_by_key(Vec::len);
    values.truncate(most);
    values
}
