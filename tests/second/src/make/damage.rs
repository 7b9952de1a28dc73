//! Damaged programs: bytes flipped, cut and moved, fields swapped, references off by one.

use crate::rng::Rng;

/// One or two damages, wherever they fall.
pub fn damaged(rng: &mut Rng, program: &[u8]) -> Vec<u8> {
    let mut bytes = program.to_vec();
    for _ in 0..rng.between(1, 2) {
        bytes = once(rng, bytes);
    }
    bytes
}

fn once(rng: &mut Rng, mut bytes: Vec<u8>) -> Vec<u8> {
    let fields = field_starts(&bytes);
    if fields.is_empty() {
        return vec![rng.byte(); rng.between(1, 6)];
    }
    let at = rng.below(bytes.len());
    match rng.below(15) {
        0 => bytes[at] ^= 1 << rng.below(8),
        1 => bytes[at] = rng.byte(),
        2 => bytes.truncate(at),
        3 => drop(bytes.remove(at)),
        4 => bytes.insert(at, rng.byte()),
        5 => return swapped(rng, &bytes, &fields),
        6 => return repeated(rng, &bytes, &fields),
        7 => bytes.extend(vec![0; rng.between(1, 4)]),
        8 => {
            let field = *rng.pick(&fields);
            bytes[field] = rng.below(5) as u8;
        }
        9 => {
            let kind = *rng.pick(&fields) + 3;
            bytes[kind.min(at.max(3))] = rng.below(12) as u8;
        }
        10 => return unused(rng, &bytes, &fields),
        _ => reference(rng, &mut bytes, &fields),
    }
    bytes
}

/// Offsets at which fields start, as far as the lengths can be followed.
fn field_starts(bytes: &[u8]) -> Vec<usize> {
    let mut starts = Vec::new();
    let mut at = 0;
    while at + 3 <= bytes.len() {
        let length = u16::from_be_bytes([bytes[at + 1], bytes[at + 2]]) as usize;
        if at + 3 + length > bytes.len() || length == 0 {
            break;
        }
        starts.push(at);
        at += 3 + length;
    }
    starts
}

fn field_end(bytes: &[u8], start: usize) -> usize {
    start + 3 + u16::from_be_bytes([bytes[start + 1], bytes[start + 2]]) as usize
}

/// Two neighbouring fields in each other's place, or two of any distance.
fn swapped(rng: &mut Rng, bytes: &[u8], fields: &[usize]) -> Vec<u8> {
    let first = rng.below(fields.len());
    let second = if rng.chance(60) { (first + 1) % fields.len() } else { rng.below(fields.len()) };
    let (first, second) = (first.min(second), first.max(second));
    if first == second {
        return bytes.to_vec();
    }
    let (a, b) = (fields[first], field_end(bytes, fields[first]));
    let (c, d) = (fields[second], field_end(bytes, fields[second]));
    [&bytes[..a], &bytes[c..d], &bytes[b..c], &bytes[a..b], &bytes[d..]].concat()
}

/// A field twice, or not at all.
fn repeated(rng: &mut Rng, bytes: &[u8], fields: &[usize]) -> Vec<u8> {
    let start = *rng.pick(fields);
    let end = field_end(bytes, start);
    if rng.chance(50) {
        [&bytes[..end], &bytes[start..end], &bytes[end..]].concat()
    } else {
        [&bytes[..start], &bytes[end..]].concat()
    }
}

/// A copy of a term behind all terms, where nothing names it. Its own parts are then used twice.
fn unused(rng: &mut Rng, bytes: &[u8], fields: &[usize]) -> Vec<u8> {
    let terms: Vec<usize> = fields.iter().copied().filter(|&start| bytes[start] == 2).collect();
    let (Some(&copied), Some(&last)) = (terms.get(rng.below(terms.len())), terms.last()) else {
        return bytes.to_vec();
    };
    let end = field_end(bytes, last);
    [&bytes[..end], &bytes[copied..field_end(bytes, copied)], &bytes[end..]].concat()
}

/// A two-byte number of one field, or the byte of a variable, moved by a little.
fn reference(rng: &mut Rng, bytes: &mut [u8], fields: &[usize]) {
    let start = *rng.pick(fields);
    let end = field_end(bytes, start);
    // A function has its count between its first reference and the others; elsewhere a kind byte comes first.
    let mut places: Vec<usize> = if bytes[start] == 3 {
        (start + 6..end.saturating_sub(1)).step_by(2).chain([start + 3]).collect()
    } else {
        (start + 4..end.saturating_sub(1)).step_by(2).collect()
    };
    places.retain(|&place| place + 2 <= end);
    let moved = *rng.pick(&[1u16, 0xffff, 2, 0xfffe, 0x0100]);
    match places.get(rng.below(places.len())) {
        Some(&place) => {
            let number = u16::from_be_bytes([bytes[place], bytes[place + 1]]).wrapping_add(moved);
            bytes[place..place + 2].copy_from_slice(&number.to_be_bytes());
        }
        None => bytes[end - 1] = bytes[end - 1].wrapping_add(moved as u8),
    }
}
