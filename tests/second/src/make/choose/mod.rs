//! Calls on programs with cases that choose by an ancilla (02, F-3).

mod writer;

use super::runs::{ancilla_bytes, run_call, run_call_of};
use super::trips::RoundTrip;
use super::values::typical_value;
use super::{choices, damage, story_calls};
use crate::calls::{Call, RunCall};
use crate::draft::{boolean, Draft, Function};
use crate::limits;
use crate::rng::Rng;
use crate::samples::choosing::*;
use crate::samples::steering::beside;
use crate::samples::{not, plus};
use writer::choosing_draft;

/// Some calls on one program. Typing is as it was, so that most of them run.
pub fn choosing_calls(rng: &mut Rng) -> Vec<Call> {
    match rng.below(100) {
        0..=5 => {
            let program = choosing_program(rng).shuffled(rng);
            let program = if rng.chance(60) { damage::damaged(rng, &program) } else { program };
            vec![Call::Check { workspace: choices::workspace(rng, 0), program }]
        }
        6..=45 => choosing_trip(rng).into_calls(),
        46..=84 => runs(rng),
        _ => {
            let draft = choosing_program(rng);
            story_calls(rng, draft)
        }
    }
}

/// A program that is accepted and has choices.
pub fn choosing_program(rng: &mut Rng) -> Draft {
    if rng.chance(12) {
        named_choices()
    } else {
        choosing_draft(rng)
    }
}

/// The functions that tests name, in one program.
pub fn named_choices() -> Draft {
    const NOT: usize = 12;
    const GIVEN: usize = 13;
    const PLUS: usize = 14;
    const BESIDE: usize = 15;
    let functions = vec![
        flipped_by_ancilla(),
        flipped_by_either(),
        flipped_by_choice(),
        flipped_by_call(NOT),
        first_match_inside(),
        named_in_argument(GIVEN),
        beside_dynamic_unit(),
        shown_twice(),
        before_sum(PLUS),
        chosen_argument(BESIDE),
        matched_argument(BESIDE),
        steered_to_choose(0),
        not(),
        given_ancilla(),
        plus(PLUS),
        beside(&[boolean()], &boolean()),
        ancilla_in_argument(GIVEN),
        flipped_by_constant(),
        before_successor(),
        choice_on_the_left(),
    ];
    Draft { functions }
}

/// Runs of one program, most often of its first function, with all that `run_call` may choose.
fn runs(rng: &mut Rng) -> Vec<Call> {
    let draft = choosing_program(rng);
    let program = draft.shuffled(rng);
    let one = |rng: &mut Rng| match rng.below(4) {
        0 => run_call(rng, &draft, &program),
        _ => run_call_of(rng, &draft, &program, 0),
    };
    (0..rng.between(1, 3)).map(|_| Call::Run(one(rng))).collect()
}

/// An accepted program with choices, there and back; back on more values as well, and with other ancillae, which may choose otherwise.
pub fn choosing_trip(rng: &mut Rng) -> RoundTrip {
    loop {
        let draft = choosing_program(rng);
        let program = draft.shuffled(rng);
        let function = if rng.chance(80) { 0 } else { rng.below(draft.functions.len()) };
        if let Some(mut trip) = RoundTrip::tried(rng, &draft, &program, function) {
            let more = more_back(rng, &draft.functions[function], &trip.backward);
            trip.others.extend(more);
            return trip;
        }
    }
}

/// Other branches may take more steps.
const MORE_FUEL: u16 = 200;

fn more_back(rng: &mut Rng, called: &Function, backward: &RunCall) -> [RunCall; 2] {
    let (_, ancillae) = called.parameters.split_last().expect("a function has a parameter");
    let fuel = backward.fuel.saturating_add(MORE_FUEL);
    let back = RunCall { fuel, workspace: limits::workspace(fuel), ..backward.clone() };
    [
        RunCall { value: typical_value(rng, &called.result), ..back.clone() },
        RunCall { ancillae: ancilla_bytes(rng, ancillae), ..back },
    ]
}
