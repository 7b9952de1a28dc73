//! Programs over large types (02, F-4): each family is accepted at every size, each end meets what document 01 says of it, and every count
//! is exact: one step more is refused.

mod common;

use common::{check, refused, value, Runs};
use second::assemble::Assembler;
use second::calls::{answer, Answer, Call, Direction, RunCall};
use second::large::{End, Family, Large, LEAST_NODES, LEAST_TERMS};
use second::limits::{TERMS, TYPES};
use second::make::large::{large_calls, random_large};
use second::refusal::{Number, Refusal};
use second::rng::Rng;

/// Terms and nodes: the least, the most, and some between.
const SIZES: [(usize, usize); 7] = [
    (LEAST_TERMS, LEAST_NODES),
    (LEAST_TERMS, 1024),
    (100, 333),
    (129, 512),
    (512, 700),
    (TERMS, LEAST_NODES),
    (TERMS, 1024),
];

/// All families with all ends, sound or not.
fn at_all_sizes(sound: bool) -> impl Iterator<Item = Large> {
    let sized = |family: Family, end: End| {
        SIZES.map(|(terms, nodes)| Large { family, terms, nodes: nodes.min(family.most_nodes()), end })
    };
    let with_all_ends = move |family| End::ALL.into_iter().flat_map(move |end| sized(family, end));
    Family::ALL.into_iter().flat_map(with_all_ends).filter(move |large| large.sound() == sound)
}

#[test]
fn families_are_accepted_within_the_limits() {
    for large in at_all_sizes(true) {
        let program = large.program();
        assert!(program.terms <= TERMS && program.types <= TYPES, "{large:?}");
        assert!(program.terms <= large.terms, "{large:?}: {} terms", program.terms);
        assert_eq!(check(&program.bytes), Answer::Accepted, "{large:?}");
    }
}

/// Of 1,024 terms, nearly all are made; many types need a whole nest for the next terms.
#[test]
fn the_largest_have_most_terms() {
    for family in Family::ALL {
        let program = Large::largest(family).program();
        let least = if matches!(family, Family::Distinct | Family::Repeated) { 800 } else { 990 };
        assert!(program.terms >= least, "{family:?}: {} terms", program.terms);
    }
}

/// Offsets of the fields of a tag, with their bodies.
fn fields(program: &[u8], tag: u8) -> Vec<(u32, &[u8])> {
    let mut found = Vec::new();
    let mut at = 0;
    while at < program.len() {
        let length = u16::from_be_bytes([program[at + 1], program[at + 2]]) as usize;
        if program[at] == tag {
            found.push((at as u32, &program[at + 3..at + 3 + length]));
        }
        at += 3 + length;
    }
    found
}

/// The offsets of the terms of a kind, those whose bodies have these bytes behind the kind.
fn terms_of(program: &[u8], kind: u8, begins: &[u8]) -> Vec<u32> {
    let meant = |body: &[u8]| body[0] == kind && body[1..].starts_with(begins);
    fields(program, 2).into_iter().filter(|(_, body)| meant(body)).map(|(at, _)| at).collect()
}

/// A kind of types, and kinds of terms.
const BOUND: u8 = 4;
const INR: u8 = 3;
const PAIR: u8 = 4;
const CASE: u8 = 7;
const CALL: u8 = 8;
const ROLL: u8 = 9;
const UNROLL: u8 = 10;

/// 6 at the call of the last function, at the last pair, or at the last unroll: section 4 places it at the term whose rule it is. Where the
/// writings differ, at the first term that compares them: the second call (the first gives the second writing), the first roll, the
/// first case whose branches are the two pairs, the first injection of a part of the first writing into the second.
#[test]
fn damaged_ones_meet_6_at_the_term_that_compares() {
    for large in at_all_sizes(false) {
        let bytes = large.program().bytes;
        let last_function = (fields(&bytes, 3).len() as u16 - 1).to_be_bytes();
        let terms = |kind| terms_of(&bytes, kind, &[]);
        let place = match (large.end, large.family) {
            (End::Turned, _) => terms_of(&bytes, CALL, &last_function).pop(),
            (End::Product { .. } | End::Part { .. }, _) => terms(PAIR).pop(),
            (End::Unfolding { .. }, _) => terms(UNROLL).pop(),
            (_, Family::Calls) => terms(CALL).get(1).copied(),
            (_, Family::Rolls | Family::Spelled | Family::Rebuilt | Family::Unspelled | Family::Shared) => {
                terms(ROLL).first().copied()
            }
            (_, Family::Pairs | Family::Exchanged | Family::Unnamed) => terms(CASE).first().copied(),
            _ => terms(INR).first().copied(),
        };
        let place = place.expect("a term of the kind");
        assert_eq!(check(&bytes), refused(Number::Mismatch, place), "{large:?}");
    }
}

/// The counts are exact. A body of m nodes with k variables unfolds to m (k + 1): 256 and 3 make 1,024, 257 and 3 are
/// past it. Types that double go by steps, so that what is past it may be far past it. Trees that no entry names are
/// left out: the terms hold them, too.
#[test]
fn one_more_node_is_too_many() {
    let with = |family, nodes| check(&Large { nodes, ..Large::largest(family) }.program().bytes);
    let number = |family, nodes| match with(family, nodes) {
        Answer::Refused(Refusal { number, .. }) => Some(number),
        _ => None,
    };
    for (family, nodes) in [
        (Family::Unrolls, 1028),
        (Family::Rolls, 1026),
        (Family::Rebuilt, 1026),
        (Family::Unspelled, 1028),
        (Family::Shared, 1026),
        (Family::Nested, 1026),
    ] {
        assert_eq!(number(family, nodes), Some(Number::Mismatch), "{family:?}");
    }
    // Entries that terms and functions name themselves: 5.
    for (family, nodes) in [
        (Family::Calls, 1025),
        (Family::Spelled, 1026),
        (Family::Pairs, 1040),
        (Family::Exchanged, 2047),
        (Family::Doubled, 1037),
    ] {
        assert_eq!(number(family, nodes), Some(Number::TypeEntry), "{family:?}");
    }
}

/// Nodes of the largest type entry.
fn most_nodes_of_entries(program: &[u8]) -> usize {
    let mut nodes: Vec<usize> = Vec::new();
    for (_, body) in fields(program, 1) {
        let parts = if body[0] == BOUND { &[] } else { &body[1..] };
        let named = parts.chunks_exact(2).map(|part| nodes[u16::from_be_bytes([part[0], part[1]]) as usize]);
        nodes.push(1 + named.sum::<usize>());
    }
    nodes.into_iter().max().expect("a type")
}

/// Trees of 1,023 nodes are an entry where they are the result, and else only the parts are that they are made of.
/// Of an unfolding of 935 nodes, entries have a pair of the recursive type, which has 56, in a sum with unit.
#[test]
fn what_no_entry_names() {
    for (family, nodes) in [(Family::Exchanged, 1023), (Family::Unnamed, 15), (Family::Unspelled, 115)] {
        assert_eq!(most_nodes_of_entries(&Large::largest(family).program().bytes), nodes, "{family:?}");
    }
}

/// There and back: every family runs, and its run comes back to where it began.
#[test]
fn families_run_both_ways() {
    for family in Family::ALL {
        for end in [End::Nothing, End::Equal] {
            let forward = Large { family, terms: 200, nodes: LEAST_NODES, end }.forward();
            let Answer::Value { value, steps } = answer(&Call::Run(forward.clone())) else {
                panic!("{family:?} runs");
            };
            let given = forward.value.clone();
            let back = answer(&Call::Run(RunCall { direction: Direction::Backward, value, ..forward }));
            assert_eq!(back, Answer::Value { value: given, steps }, "{family:?}");
        }
    }
}

/// Two recursive types that differ in one leaf, under the binder: 1 + (1 × X) and 1 + (X × 1).
#[test]
fn a_leaf_under_a_binder() {
    let mut a = Assembler::default();
    let (unit, variable) = (a.unit_type(), a.bound(0));
    let recursive = |a: &mut Assembler, left, right| {
        let parts = a.product(left, right);
        let sum = a.sum(unit, parts);
        a.recursive(sum)
    };
    let (one, other) = (recursive(&mut a, unit, variable), recursive(&mut a, variable, unit));
    let given = a.variable(0);
    a.function(other, &[one], given);
    // Unit 4 bytes, the variable 5, twice 8 + 8 + 6 for a recursive type, the term 5: the function's rule is at 58.
    assert_eq!(check(&a.bytes()), refused(Number::Mismatch, 58));
}

/// Under two binders, a sum of both variables. Only which binder each of them skips to differs.
fn skipping(first: u8, second: u8) -> Vec<u8> {
    let mut a = Assembler::default();
    let written = |a: &mut Assembler, first, second| {
        let (left, right) = (a.bound(first), a.bound(second));
        let sum = a.sum(left, right);
        let inner = a.recursive(sum);
        a.recursive(inner)
    };
    let (one, other) = (written(&mut a, 0, 1), written(&mut a, first, second));
    let given = a.variable(0);
    let unrolled = a.unroll(one, given);
    let rolled = a.roll(other, unrolled);
    a.function(other, &[one], rolled);
    a.bytes()
}

#[test]
fn a_variable_that_skips_to_another_binder() {
    assert_eq!(check(&skipping(0, 1)), Answer::Accepted);
    // Twice 5 + 5 + 8 + 6 + 6 bytes of types, a variable of 5, the unroll of 8: the roll is the first to compare, at 73.
    for (first, second) in [(1, 0), (0, 0), (1, 1)] {
        assert_eq!(check(&skipping(first, second)), refused(Number::Mismatch, 73), "{first} {second}");
    }
}

/// The unfolding of a type is equal to its writing as an entry, also part by part, and not to the folded type.
#[test]
fn an_unfolding_written_out() {
    let mut a = Assembler::default();
    let (unit, variable) = (a.unit_type(), a.bound(0));
    let sum = a.sum(unit, variable);
    let nat = a.recursive(sum);
    let written = a.sum(unit, nat);
    let given = a.variable(0);
    let unrolled = a.unroll(nat, given);
    a.function(written, &[nat], unrolled);
    assert_eq!(check(&a.bytes()), Answer::Accepted);
    assert_eq!(Runs::of(&a.bytes()).forward(0, &[], &[4, 1, 0]), value(&[1, 0], 2));
    let given = a.variable(0);
    let unrolled = a.unroll(nat, given);
    let bytes = {
        a.function(nat, &[nat], unrolled);
        a.bytes()
    };
    // Types 4 + 5 + 8 + 6 + 8 bytes, terms 5 + 8 + 5 + 8, a function of 10: the second one is at 67.
    assert_eq!(check(&bytes), refused(Number::Mismatch, 67));
}

/// Random programs are as sound as they say, and meet 6 at every kind of term that an end has.
#[test]
fn random_ones_keep_their_word() {
    const PROGRAMS: usize = 600;
    let mut rng = Rng::new(11);
    let mut damaged = 0;
    for _ in 0..PROGRAMS {
        let large = random_large(&mut rng);
        match check(&large.program().bytes) {
            Answer::Accepted => assert!(large.sound(), "{large:?}"),
            Answer::Refused(refusal) => {
                damaged += 1;
                assert!(!large.sound() && refusal.number == Number::Mismatch, "{large:?}: {refusal:?}");
            }
            other => panic!("{other:?}"),
        }
    }
    assert!((PROGRAMS / 8..PROGRAMS / 2).contains(&damaged), "{damaged} damaged");
}

/// Most calls are checks, some are runs, and some of these run back.
#[test]
fn random_calls_check_and_run() {
    let mut rng = Rng::new(12);
    let calls: Vec<Call> = (0..400).flat_map(|_| large_calls(&mut rng)).collect();
    let runs = calls.iter().filter(|call| matches!(call, Call::Run(_))).count();
    let back =
        calls.iter().filter(|call| matches!(call, Call::Run(run) if run.direction == Direction::Backward)).count();
    assert!(runs * 10 > calls.len() && runs * 3 < calls.len(), "{runs} of {}", calls.len());
    assert!(back * 4 > runs, "{back} of {runs}");
}
