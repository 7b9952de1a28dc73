//! Journals by their form alone (section 5): of any entries, also such that no program wrote, and damaged in each way that a journal
//! can miss its form.

use super::types::random_type;
use super::values::{malformed, random_value, typical_value};
use crate::journal::{Conversion, Journal};
use crate::limits::{ANCILLA_BYTES, CONVERSIONS, VALUE_BYTES};
use crate::rng::Rng;

/// A well-formed journal of 0 to 64 entries; now and then each of them is as long as can be.
pub fn any_journal(rng: &mut Rng) -> Journal {
    let standing = match rng.below(10) {
        0 | 1 => 0,
        2..=6 => rng.between(1, 4),
        7 | 8 => rng.below(CONVERSIONS + 1),
        _ => CONVERSIONS - rng.below(2),
    };
    let longest = rng.chance(2);
    let held = if longest || rng.chance(4) { chain(rng, VALUE_BYTES) } else { any_value(rng) };
    let mut journal = Journal { held, conversions: any_conversions(rng, standing) };
    if longest {
        journal.conversions.iter_mut().for_each(|entry| entry.ancillae = chain(rng, ANCILLA_BYTES));
    }
    journal
}

/// A journal with the same held value and as many conversions, which are others.
pub fn with_other_entries(rng: &mut Rng, journal: &Journal) -> Journal {
    let conversions = any_conversions(rng, journal.conversions.len());
    Journal { held: journal.held.clone(), conversions }
}

fn any_conversions(rng: &mut Rng, count: usize) -> Vec<Conversion> {
    (0..count).map(|_| any_conversion(rng)).collect()
}

fn any_conversion(rng: &mut Rng) -> Conversion {
    let (function, steps) = (rng.word() as u16, rng.word() as u32);
    Conversion {
        function: *rng.pick(&[0, 1, function % 64, 63, 64, function, u16::MAX]),
        steps: *rng.pick(&[0, steps % 100, steps % 0x1_0000, 0x1_0000, steps, u32::MAX]),
        ancillae: any_ancillae(rng),
    }
}

fn any_ancillae(rng: &mut Rng) -> Vec<u8> {
    if rng.chance(1) {
        return if rng.chance(50) { chain(rng, ANCILLA_BYTES) } else { vec![0; ANCILLA_BYTES] };
    }
    let mut ancillae = Vec::new();
    for _ in 0..*rng.pick(&[0, 0, 1, 1, 1, 2, 3, 7, 9]) {
        let value = small_value(rng);
        if ancillae.len() + value.len() <= ANCILLA_BYTES {
            ancillae.extend(value);
        }
    }
    ancillae
}

fn any_value(rng: &mut Rng) -> Vec<u8> {
    let ty = random_type(rng);
    typical_value(rng, &ty)
}

fn small_value(rng: &mut Rng) -> Vec<u8> {
    let ty = random_type(rng);
    random_value(rng, &ty, 6)
}

/// A value of so many bytes: constructors of one part each, and a unit.
fn chain(rng: &mut Rng, length: usize) -> Vec<u8> {
    let mut bytes: Vec<u8> = (1..length).map(|_| *rng.pick(&[1, 2, 4])).collect();
    bytes.push(0);
    bytes
}

/// In a buffer with some zeros behind its fields, or none.
pub fn in_buffer(rng: &mut Rng, journal: &Journal) -> Vec<u8> {
    let zeros = zeros(rng);
    journal.write(journal.length() + zeros).unwrap_or_default()
}

fn zeros(rng: &mut Rng) -> usize {
    match rng.below(10) {
        0..=2 => 0,
        3 => rng.below(300),
        _ => rng.below(30),
    }
}

/// Makes of a well-formed journal the bytes of one that is malformed.
pub type Damage = fn(&mut Rng, Journal) -> Vec<u8>;

/// The ways in which a journal misses its form.
pub const DAMAGES: [(&str, Damage); 16] = [
    ("no bytes", |_, _| Vec::new()),
    ("only zeros", |rng, _| vec![0; rng.between(1, 40)]),
    ("another tag than 21", other_held_tag),
    ("a held value that is none", held_malformed),
    ("a held value over the limit", held_over_limit),
    ("a held value past the end", held_past_the_end),
    ("a second field 21", second_held),
    ("another tag than 22", other_entry_tag),
    ("an entry under six bytes", short_entry),
    ("an entry past the end", entry_past_the_end),
    ("a tag without its length", header_cut),
    ("a field cut short", field_cut),
    ("ancillae that are no whole values", ancillae_malformed),
    ("ancillae over the limit", ancillae_over_limit),
    ("more than 64 entries", too_many_entries),
    ("a byte behind the zeros", behind_zeros),
];

fn held_malformed(rng: &mut Rng, journal: Journal) -> Vec<u8> {
    let held = malformed(rng, &journal.held);
    in_buffer(rng, &Journal { held, ..journal })
}

fn held_over_limit(rng: &mut Rng, journal: Journal) -> Vec<u8> {
    let held = over(rng, VALUE_BYTES);
    in_buffer(rng, &Journal { held, ..journal })
}

fn ancillae_malformed(rng: &mut Rng, journal: Journal) -> Vec<u8> {
    let no_value = *rng.pick(&[&[5][..], &[0xff], &[1], &[3, 0]]);
    let ancillae = [&any_ancillae(rng), no_value].concat();
    with_ancillae(rng, journal, ancillae)
}

fn ancillae_over_limit(rng: &mut Rng, journal: Journal) -> Vec<u8> {
    let ancillae = if rng.chance(50) { over(rng, ANCILLA_BYTES) } else { vec![0; ANCILLA_BYTES + 1] };
    with_ancillae(rng, journal, ancillae)
}

/// A value a little longer than a limit.
fn over(rng: &mut Rng, limit: usize) -> Vec<u8> {
    let length = limit + rng.between(1, 4);
    chain(rng, length)
}

/// One of the entries, or one more where none stands, has these ancillae.
fn with_ancillae(rng: &mut Rng, mut journal: Journal, ancillae: Vec<u8>) -> Vec<u8> {
    if journal.conversions.is_empty() {
        journal.conversions.push(any_conversion(rng));
    }
    let at = rng.below(journal.conversions.len());
    journal.conversions[at].ancillae = ancillae;
    in_buffer(rng, &journal)
}

fn too_many_entries(rng: &mut Rng, mut journal: Journal) -> Vec<u8> {
    let more = CONVERSIONS + rng.between(1, 3) - journal.conversions.len();
    journal.conversions.extend(any_conversions(rng, more));
    in_buffer(rng, &journal)
}

/// Bytes of tag and length.
const HEADER: usize = 3;

/// Field 21, then each entry's field.
fn fields(journal: &Journal) -> Vec<Vec<u8>> {
    let held = Journal { held: journal.held.clone(), conversions: Vec::new() };
    let held = held.write(held.length()).unwrap_or_default();
    [held].into_iter().chain(journal.conversions.iter().map(Conversion::field)).collect()
}

fn other_held_tag(rng: &mut Rng, journal: Journal) -> Vec<u8> {
    let mut bytes = in_buffer(rng, &journal);
    bytes[0] = *rng.pick(&[0, 1, 0x20, 0x22, 0x23, 0xff]);
    bytes
}

fn second_held(rng: &mut Rng, journal: Journal) -> Vec<u8> {
    let held = fields(&journal).swap_remove(0);
    with_field(rng, &journal, held)
}

fn other_entry_tag(rng: &mut Rng, journal: Journal) -> Vec<u8> {
    let mut field = any_conversion(rng).field();
    field[0] = *rng.pick(&[1, 2, 0x20, 0x23, 0x24, 0xff]);
    with_field(rng, &journal, field)
}

fn short_entry(rng: &mut Rng, journal: Journal) -> Vec<u8> {
    let length = rng.below(6);
    let body = vec![rng.below(5) as u8; length];
    with_field(rng, &journal, [&[0x22, 0, length as u8], &body[..]].concat())
}

/// A field more behind field 21, anywhere among the entries.
fn with_field(rng: &mut Rng, journal: &Journal, field: Vec<u8>) -> Vec<u8> {
    let mut fields = fields(journal);
    fields.insert(rng.between(1, fields.len()), field);
    fields.push(vec![0; zeros(rng)]);
    fields.concat()
}

fn held_past_the_end(rng: &mut Rng, journal: Journal) -> Vec<u8> {
    past_the_end(rng, &Journal { conversions: Vec::new(), ..journal })
}

fn entry_past_the_end(rng: &mut Rng, mut journal: Journal) -> Vec<u8> {
    journal.conversions.push(any_conversion(rng));
    past_the_end(rng, &journal)
}

/// The last field's length reaches behind the buffer, which ends with the field or with zeros.
fn past_the_end(rng: &mut Rng, journal: &Journal) -> Vec<u8> {
    let mut fields = fields(journal);
    let zeros = zeros(rng);
    let last = fields.last_mut().expect("field 21 stands");
    let length = (last.len() - HEADER + zeros + rng.between(1, 300)) as u16;
    last[1..HEADER].copy_from_slice(&length.to_be_bytes());
    last.extend(vec![0; zeros]);
    fields.concat()
}

fn header_cut(rng: &mut Rng, journal: Journal) -> Vec<u8> {
    let mut fields = fields(&journal);
    fields.push([0x22, 0][..rng.between(1, 2)].to_vec());
    fields.concat()
}

fn field_cut(rng: &mut Rng, journal: Journal) -> Vec<u8> {
    let mut fields = fields(&journal);
    let last = fields.last_mut().expect("field 21 stands");
    last.truncate(rng.between(1, last.len() - 1));
    fields.concat()
}

fn behind_zeros(rng: &mut Rng, journal: Journal) -> Vec<u8> {
    let fields = fields(&journal);
    let entry = any_conversion(rng).field();
    let behind = rng.pick(&[vec![1], vec![0x22], entry, fields[0].clone()]).clone();
    [fields.concat(), vec![0; rng.between(1, 30)], behind, vec![0; rng.below(3)]].concat()
}
