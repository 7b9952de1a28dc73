//! Made calls meet every refusal, for each call that can meet it, at each kind of place.

use second::calls::answer;
use second::lines::{read_call, write_call};
use second::make::Maker;
use second::tally::Tally;
use std::sync::OnceLock;

const CALLS: usize = 30_000;

/// Made once for all tests.
fn tally() -> &'static Tally {
    static MADE: OnceLock<Tally> = OnceLock::new();
    MADE.get_or_init(|| {
        let mut tally = Tally::default();
        for call in Maker::new(7).take(CALLS) {
            tally.add(&call, &answer(&call));
        }
        tally
    })
}

const TERMS: [&str; 11] =
    ["variable", "unit", "inl", "inr", "pair", "let", "let pair", "case", "call", "roll", "unroll"];

/// What each call must meet; 0 stands for accepted ones.
const NUMBERS: [(&str, &[u8]); 8] = [
    ("check", &[0, 1, 2, 3, 4, 5, 6, 7, 8]),
    ("forward", &[0, 1, 2, 4, 9, 10, 11, 12, 13, 14, 15, 17]),
    ("backward", &[0, 1, 2, 4, 9, 10, 11, 12, 13, 14, 15, 16, 17]),
    ("open", &[0, 1, 2, 10, 20]),
    ("convert", &[0, 1, 2, 4, 9, 10, 11, 12, 13, 14, 15, 18, 20]),
    ("rollback", &[0, 1, 2, 4, 9, 10, 11, 12, 13, 14, 15, 16, 18, 19, 20]),
    ("nurse", &[0, 17, 18]),
    ("workshop", &[0, 17, 18]),
];

/// The kinds of field or term at which a call must meet a number.
const PLACES: [(&str, u8, &[&str]); 12] = [
    ("check", 3, &["function", "bound"]),
    ("check", 4, &["product", "sum", "recursive", "function", "variable", "unit", "call"]),
    ("check", 5, &["inl", "inr", "roll", "unroll", "function"]),
    ("check", 6, &["inl", "inr", "pair", "let pair", "case", "call", "roll", "unroll", "function"]),
    ("check", 7, &["variable", "let", "let pair", "case"]),
    ("check", 8, &["variable", "let", "let pair", "case", "function"]),
    ("forward", 12, &TERMS),
    ("backward", 12, &TERMS),
    ("forward", 14, &["inl", "inr", "pair", "roll"]),
    ("backward", 14, &["variable", "call", "let", "let pair", "roll"]),
    ("backward", 15, &["case"]),
    ("backward", 16, &["inl", "inr", "variable"]),
];

#[test]
fn every_refusal_is_met() {
    let tally = tally();
    for (call, numbers) in NUMBERS {
        for &number in numbers {
            assert!(tally.count(number, call) > 0, "{call} never meets {number}");
        }
    }
    for (call, number, places) in PLACES {
        for place in places {
            let met = tally.places(number, call).any(|(kind, _)| kind == *place);
            assert!(met, "{call} never meets {number} at {place}");
        }
    }
}

/// A good share of the calls are of the readers, and of each reader's calls every answer has its share.
#[test]
fn readers_are_called_often() {
    let tally = tally();
    for reader in ["nurse", "workshop"] {
        let [accepted, short, malformed] = [0, 17, 18].map(|number| tally.count(number, reader));
        let all = accepted + short + malformed;
        assert!(all > CALLS / 20, "{reader} is called {all} times");
        assert!(
            [accepted, short, malformed].iter().all(|count| count * 20 > all),
            "{reader}: {accepted} {short} {malformed}"
        );
    }
}

#[test]
fn a_seed_always_makes_the_same_calls() {
    let lines = |seed| Maker::new(seed).take(300).map(|call| write_call(&call)).collect::<Vec<_>>();
    assert_eq!(lines(3), lines(3));
    assert_ne!(lines(3), lines(4));
}

#[test]
fn calls_are_read_as_they_were_written() {
    for call in Maker::new(5).take(1_000) {
        assert_eq!(read_call(&write_call(&call)), Ok(call));
    }
}
