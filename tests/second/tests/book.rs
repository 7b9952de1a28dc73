//! Demand 3: journals on bytes answer as the plain book does, to their readers too, and a rollback with enough of
//! everything is never refused.

use second::calls::{answer, Answer, Call, ConvertCall};
use second::limits;
use second::make::lists::{book_list, Turn};
use second::rng::Rng;

#[test]
fn every_call_is_answered_as_the_book_answers() {
    let mut rng = Rng::new(21);
    for _ in 0..150 {
        for turn in book_list(&mut rng) {
            assert_eq!(answer(&turn.call), turn.answer, "{:?}", turn.call);
        }
    }
}

/// After each call both readers are told the book's held record, how many rows it has, and the rows' fields.
#[test]
fn readers_are_told_what_the_book_has() {
    let mut rng = Rng::new(24);
    let (mut none_stand, mut most) = (0, 0);
    for _ in 0..150 {
        for turn in book_list(&mut rng) {
            for (call, expected) in turn.readers() {
                assert_eq!(answer(&call), expected, "{call:?}");
            }
            none_stand += usize::from(turn.reading.standing == 0);
            most = most.max(turn.reading.standing);
        }
    }
    assert!(none_stand > 100 && most >= 10, "{none_stand} times none stood, at most {most}");
}

/// Each call gets the journal as the last one left it, with zeros added behind or left off.
#[test]
fn lists_keep_the_premises() {
    let mut rng = Rng::new(22);
    for _ in 0..150 {
        let list = book_list(&mut rng);
        assert!(matches!((&list[0].call, &list[0].answer), (Call::Open { .. }, Answer::Opened { .. })));
        let mut left: Option<&[u8]> = None;
        for Turn { call, answer, .. } in &list {
            let met = call.journal().expect("a call on a journal");
            assert!(left.is_none_or(|left| same_but_for_zeros(met, left)), "{call:?}");
            left = call.journal_after(answer);
        }
    }
}

#[test]
fn a_rollback_with_enough_of_everything_restores_what_the_conversion_met() {
    let mut rng = Rng::new(23);
    let mut standing = 0;
    for _ in 0..150 {
        for Turn { call, answer, .. } in book_list(&mut rng) {
            if let (Call::Convert(convert), Answer::Held { steps, journal, .. }) = (call, answer) {
                restores(&convert, steps, &journal, rng.below(3));
                standing += 1;
            }
        }
    }
    assert!(standing > 300, "only {standing} conversions stood");
}

fn restores(convert: &ConvertCall, steps: u32, left: &[u8], grown: usize) {
    let mut journal = left.to_vec();
    journal.resize(left.len() + grown, 0);
    let rollback = Call::Rollback {
        workspace: limits::workspace(steps as u16),
        fuel: steps as u16,
        program: convert.program.clone(),
        journal,
    };
    let mut restored = convert.journal.clone();
    restored.resize(left.len() + grown, 0);
    match answer(&rollback) {
        Answer::Held { steps: back, journal, .. } => assert_eq!((back, journal), (steps, restored)),
        other => panic!("{other:?} to {rollback:?}"),
    }
}

fn same_but_for_zeros(left: &[u8], right: &[u8]) -> bool {
    let common = left.len().min(right.len());
    let zeros = |bytes: &[u8]| bytes.iter().all(|&byte| byte == 0);
    left[..common] == right[..common] && zeros(&left[common..]) && zeros(&right[common..])
}
