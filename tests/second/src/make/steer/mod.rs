//! Calls on programs in which a dynamic variable steers calls in a let's bound term (02, F-2).

pub mod refused;
mod spoilt;
pub mod wide;
mod writer;

use super::runs::run_call_of;
use super::trips::RoundTrip;
use super::{choices, damage, story_calls};
use crate::calls::Call;
use crate::draft::Draft;
use crate::limits;
use crate::rng::Rng;
use crate::samples::plus;
use crate::samples::steering::{by_first, by_second, over_list, running_sums, under_ancilla};
use refused::REFUSED;
use spoilt::spoilt_draft;
use wide::wide_draft;
use writer::steered_draft;

/// Some calls on one program, or on a few.
pub fn steered_calls(rng: &mut Rng) -> Vec<Call> {
    match rng.below(100) {
        drawn @ 0..=65 => {
            let draft = match drawn {
                0..=34 => rng.pick(&REFUSED).draft(rng),
                35..=62 => spoilt_draft(rng),
                63 | 64 => wide_draft(rng),
                _ => steered_program(rng),
            };
            vec![check(rng, &draft)]
        }
        66..=68 => {
            let program = steered_program(rng).shuffled(rng);
            vec![Call::Check { workspace: limits::workspace(0), program: damage::damaged(rng, &program) }]
        }
        69..=80 => steered_trip(rng).into_calls(),
        81..=95 => runs(rng),
        _ => {
            let draft = steered_program(rng);
            story_calls(rng, draft)
        }
    }
}

fn check(rng: &mut Rng, draft: &Draft) -> Call {
    let program = if rng.chance(50) { draft.backwards() } else { draft.shuffled(rng) };
    Call::Check { workspace: choices::workspace(rng, 0), program }
}

/// A program that is accepted and steers.
pub fn steered_program(rng: &mut Rng) -> Draft {
    if rng.chance(25) {
        converters()
    } else {
        steered_draft(rng)
    }
}

/// Converters as their writers want them: one part of the record steers how another is converted, and comes back with it.
pub fn converters() -> Draft {
    let functions = vec![plus(0), by_first(0), by_second(0), under_ancilla(0), running_sums(4, 0), over_list(4)];
    Draft { functions }
}

/// Runs of one steered function, with all that `run_call` may choose.
fn runs(rng: &mut Rng) -> Vec<Call> {
    let draft = steered_program(rng);
    let program = draft.shuffled(rng);
    let function = steered_function(rng, &draft);
    (0..rng.between(1, 3)).map(|_| Call::Run(run_call_of(rng, &draft, &program, function))).collect()
}

/// The first function is the steered one, unless it is plus: then each behind it is.
fn steered_function(rng: &mut Rng, draft: &Draft) -> usize {
    if draft.functions[0].body == plus(0).body {
        rng.between(1, draft.functions.len() - 1)
    } else {
        0
    }
}

/// A program that is accepted and steers, there and back.
pub fn steered_trip(rng: &mut Rng) -> RoundTrip {
    loop {
        let draft = steered_program(rng);
        let program = draft.shuffled(rng);
        let function = steered_function(rng, &draft);
        if let Some(trip) = RoundTrip::tried(rng, &draft, &program, function) {
            return trip;
        }
    }
}
