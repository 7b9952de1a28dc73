//! Programs with cases that choose by an ancilla (02, F-3), run there and back by both evaluators.

use crate::compare::{shared_out, Tally};
use crate::trips::compare_trip;
use second::calls::{under_first_match, Answer};
use second::make::choose::choosing_trip;
use second::make::trips::RoundTrip;
use second::refusal::Number;
use second::rng::Rng;
use second::typing::check;
use std::sync::atomic::{AtomicUsize, Ordering};

/// So many in a hundred programs must run both ways, and so many of them take the right branch of a choice whose left branch may yield
/// the value, or the run says too little.
const LEAST: usize = 80;
const LEAST_PASSING: usize = 30;

#[derive(Default)]
struct Counts {
    both_ways: AtomicUsize,
    /// Of those, runs that first match would refuse at a case that chooses by an ancilla.
    passing: AtomicUsize,
    /// Answers of the engine that refuse such a case by first match.
    refused: AtomicUsize,
}

/// Every call is compared; of the programs, those are counted that the engine itself runs forward and back to the same record.
pub fn compare_choosing(seed: u64, count: usize) -> Result<Tally, String> {
    let counts = Counts::default();
    let tally = shared_out(seed, count, |seed, count, tally| {
        let mut rng = Rng::new(seed);
        for _ in 0..count {
            counts.add(&choosing_trip(&mut rng), tally);
        }
    });
    let [both_ways, passing, refused] =
        [counts.both_ways, counts.passing, counts.refused].map(AtomicUsize::into_inner);
    println!("{both_ways} of {count} programs with choices ran both ways, {passing} of them past first match");
    if refused > 0 {
        println!("{} calls compared, {} differ", tally.compared, tally.different);
        return Err(format!(
            "{refused} answers of the engine refuse a case that chooses by an ancilla by first match"
        ));
    }
    if tally.different == 0 && both_ways * 100 < count * LEAST {
        return Err(format!("fewer than {LEAST} in a hundred programs ran both ways"));
    }
    if tally.different == 0 && passing * 100 < count * LEAST_PASSING {
        return Err(format!("fewer than {LEAST_PASSING} in a hundred programs ran past first match"));
    }
    Ok(tally)
}

impl Counts {
    fn add(&self, trip: &RoundTrip, tally: &mut Tally) {
        let program = check(&trip.forward.program).expect("an accepted program").program;
        let by_first_match = |answer: &Answer| match answer {
            Answer::Refused(refusal) if refusal.number == Number::FirstMatch => {
                program.by_ancilla[refusal.place as usize]
            }
            _ => false,
        };
        let raise = |count: &AtomicUsize| {
            count.fetch_add(1, Ordering::Relaxed);
        };
        let both_ways = compare_trip(trip, tally, |answer| {
            if by_first_match(answer) {
                raise(&self.refused);
            }
        });
        if both_ways {
            raise(&self.both_ways);
        }
        if both_ways && by_first_match(&under_first_match(&trip.forward)) {
            raise(&self.passing);
        }
    }
}
