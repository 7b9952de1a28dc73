//! Cases that choose by an ancilla (02, F-3), both ways, and cases near to them, for which first match holds.

use super::run;
use crate::calls::{Call, Direction};
use crate::limits::FUEL;
use crate::make::choose::named_choices;
use crate::make::values::small_values;

/// Each function by all its smallest ancillae and values, forward, and backward on all small values of its result.
pub fn choosing() -> Vec<Call> {
    const BYTES: usize = 8;
    const VALUES: usize = 4;
    let draft = named_choices();
    let program = draft.bytes();
    let mut calls = Vec::new();
    for (number, function) in draft.functions.iter().enumerate() {
        let (dynamic, ancillae) = function.parameters.split_last().expect("a function has a parameter");
        let given = ancillae.iter().fold(vec![Vec::new()], |given: Vec<Vec<u8>>, ty| {
            let values = small_values(ty, BYTES, VALUES);
            given.iter().flat_map(|before| values.iter().map(move |value| [&before[..], value].concat())).collect()
        });
        for ancillae in &given {
            for (direction, ty) in [(Direction::Forward, dynamic), (Direction::Backward, &function.result)] {
                let values = small_values(ty, BYTES, VALUES);
                let call = |value: &Vec<u8>| run(&program, direction, number as u16, FUEL, ancillae, value);
                calls.extend(values.iter().map(call));
            }
        }
    }
    calls
}
