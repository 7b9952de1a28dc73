//! Forward and backward calls on a well-typed program.

use super::choices;
use super::values::{long_value, malformed, near_miss, typed_near_miss, typical_value};
use crate::calls::{answer, Answer, Call, Direction, RunCall};
use crate::draft::{nat, Draft, Type};
use crate::limits::{self, FUEL, VALUE_BYTES};
use crate::rng::Rng;
use crate::samples::nat_bytes;

pub fn run_call(rng: &mut Rng, draft: &Draft, program: &[u8]) -> RunCall {
    let function = rng.below(draft.functions.len());
    run_call_of(rng, draft, program, function)
}

/// A call of one function.
pub fn run_call_of(rng: &mut Rng, draft: &Draft, program: &[u8], function: usize) -> RunCall {
    let signature = &draft.functions[function];
    let (dynamic, ancillae) = signature.parameters.split_last().expect("a function has a parameter");
    let mut call = RunCall {
        direction: Direction::Forward,
        workspace: limits::workspace(FUEL),
        output: VALUE_BYTES,
        fuel: FUEL,
        function: function as u16,
        program: program.to_vec(),
        ancillae: ancilla_bytes(rng, ancillae),
        value: argument(rng, dynamic),
    };
    if rng.chance(50) {
        call.value = backward_value(rng, &call, &signature.result);
        call.direction = Direction::Backward;
    }
    distort(rng, &mut call);
    let ask = |fuel: u16| answer(&Call::Run(RunCall { fuel, ..call.clone() }));
    call.fuel = choices::fuel(rng, ask);
    if let Answer::Value { value, .. } = answer(&Call::Run(call.clone())) {
        call.output = choices::length(rng, value.len());
    } else {
        call.output = *rng.pick(&[0, 1, 16, VALUE_BYTES]);
    }
    call.workspace = choices::workspace(rng, call.fuel);
    call
}

/// A call on a program whose values come near the limit of size, either way.
pub fn long_run_call(rng: &mut Rng, draft: &Draft, program: &[u8]) -> RunCall {
    let mut call = run_call(rng, draft, program);
    let Some(signature) = draft.functions.get(call.function as usize) else { return call };
    let ty = match call.direction {
        Direction::Forward => signature.parameters.last().expect("a function has a parameter"),
        Direction::Backward => &signature.result,
    };
    call.value = long_value(rng, ty);
    call.fuel = if rng.chance(80) { FUEL } else { call.fuel };
    call.workspace = limits::workspace(call.fuel);
    call.output = if rng.chance(90) { VALUE_BYTES } else { call.output };
    call
}

/// Values for ancilla parameters, one after another within the limit.
pub fn ancilla_bytes(rng: &mut Rng, types: &[Type]) -> Vec<u8> {
    loop {
        let bytes: Vec<u8> = types.iter().flat_map(|ty| typical_value(rng, ty)).collect();
        if bytes.len() <= limits::ANCILLA_BYTES {
            return bytes;
        }
    }
}

/// A value of the type; now and then one at the limit of size, or of the height of a recursion.
pub fn argument(rng: &mut Rng, ty: &Type) -> Vec<u8> {
    if *ty == nat() && rng.chance(12) {
        let near_height = rng.between(250, 258);
        return nat_bytes(*rng.pick(&[near_height, 254, 255, 509, 510]));
    }
    if rng.chance(12) {
        long_value(rng, ty)
    } else {
        typical_value(rng, ty)
    }
}

/// What the call yields forward, something close to that, or any value of the result type.
fn backward_value(rng: &mut Rng, forward: &RunCall, result: &Type) -> Vec<u8> {
    if rng.chance(10) {
        return long_value(rng, result);
    }
    match answer(&Call::Run(forward.clone())) {
        Answer::Value { value, .. } if rng.chance(60) => value,
        Answer::Value { value, .. } if rng.chance(80) => typed_near_miss(rng, result, &value),
        _ => typical_value(rng, result),
    }
}

/// Arguments that the call row refuses.
fn distort(rng: &mut Rng, call: &mut RunCall) {
    match rng.below(40) {
        0 => call.function = *rng.pick(&[call.function + 1, 63, 64, 0xffff, 0x0100]),
        1 => call.value = malformed(rng, &call.value),
        2 => call.ancillae = malformed(rng, &call.ancillae),
        3 => call.ancillae.extend(vec![0; rng.between(1, 2)]),
        4 => call.value = near_miss(rng, &call.value),
        5 => call.ancillae = near_miss(rng, &call.ancillae),
        _ => {}
    }
}
