//! Calls there and back.

use super::runs::ancilla_bytes;
use super::values::{typed_near_miss, typical_value};
use crate::calls::{answer, Answer, Call, Direction, RunCall};
use crate::draft::Draft;
use crate::limits::{self, FUEL, VALUE_BYTES};
use crate::rng::Rng;

/// An accepted program, a forward call that it answers, the call back on the result, and calls back on other values of
/// the result's type, of which most have no input.
#[derive(Debug)]
pub struct RoundTrip {
    pub forward: RunCall,
    pub backward: RunCall,
    pub others: Vec<RunCall>,
}

impl RoundTrip {
    /// The run is tried with some records: a value may come to be too long, and a case may meet first match.
    pub fn tried(rng: &mut Rng, draft: &Draft, program: &[u8], function: usize) -> Option<RoundTrip> {
        (0..3).find_map(|_| RoundTrip::of(rng, draft, program, function))
    }

    /// None if the record that is drawn does not run forward.
    fn of(rng: &mut Rng, draft: &Draft, program: &[u8], function: usize) -> Option<RoundTrip> {
        let called = &draft.functions[function];
        let (dynamic, ancillae) = called.parameters.split_last().expect("a function has a parameter");
        let mut forward = RunCall {
            direction: Direction::Forward,
            workspace: limits::workspace(FUEL),
            output: VALUE_BYTES,
            fuel: FUEL,
            function: function as u16,
            program: program.to_vec(),
            ancillae: ancilla_bytes(rng, ancillae),
            value: typical_value(rng, dynamic),
        };
        let Answer::Value { value, steps } = answer(&Call::Run(forward.clone())) else { return None };
        let back = |value: Vec<u8>, fuel: u16| RunCall {
            direction: Direction::Backward,
            workspace: limits::workspace(fuel),
            fuel,
            value,
            ..forward.clone()
        };
        let enough = steps as u16;
        let others = (0..2).map(|_| back(typed_near_miss(rng, &called.result, &value), enough.saturating_add(40)));
        let (others, backward) = (others.collect(), back(value, enough));
        (forward.fuel, forward.workspace) = (enough, limits::workspace(enough));
        Some(RoundTrip { forward, backward, others })
    }

    pub fn into_calls(self) -> Vec<Call> {
        [self.forward, self.backward].into_iter().chain(self.others).map(Call::Run).collect()
    }
}
