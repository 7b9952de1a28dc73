//! Calls there and back by both evaluators.

use crate::compare::Tally;
use second::calls::{answer, Answer, Call, RunCall};
use second::make::trips::RoundTrip;

/// Compares the calls of one program, and hands on what the engine answered to each; whether it came back to what it was given, in as
/// many steps.
pub fn compare_trip(trip: &RoundTrip, tally: &mut Tally, mut answered: impl FnMut(&Answer)) -> bool {
    let mut compared = |call: &RunCall| {
        let call = Call::Run(call.clone());
        let got = tally.compare(&call, &answer(&call));
        got.iter().for_each(&mut answered);
        got
    };
    let there = compared(&trip.forward);
    let back = compared(&trip.backward);
    for call in &trip.others {
        compared(call);
    }
    match (there, back) {
        (Some(Answer::Value { value, steps }), Some(Answer::Value { value: record, steps: steps_back })) => {
            (value, record, steps) == (trip.backward.value.clone(), trip.forward.value.clone(), steps_back)
        }
        _ => false,
    }
}
