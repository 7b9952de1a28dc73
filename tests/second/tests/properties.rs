//! What must hold of every made call: both ways agree, 16 is never contradicted, and nothing panics.

use second::calls::{answer, Answer, Call, Direction, RunCall};
use second::draft::{bound, product, recursive, sum, unit_type, Type};
use second::limits::{self, FUEL, VALUE_BYTES};
use second::make::values::small_values;
use second::make::Maker;
use second::refusal::Number;
use second::types::{Shape, TypeId, Types};
use second::typing::check;

fn hold(seed: u64, count: usize) {
    let mut answered = 0;
    for call in Maker::new(seed).take(count) {
        let first = answer(&call);
        let Call::Run(run) = call else { continue };
        match first {
            Answer::Value { value, steps } => {
                runs_the_other_way(&run, &value, steps);
                answered += 1;
            }
            Answer::Refused(refusal) if refusal.number == Number::NoInput => no_small_input(&run),
            _ => {}
        }
    }
    assert!(answered > count / 50, "only {answered} of {count} calls answered a value");
}

/// Demand 2: the other direction comes back with the same steps, with the same fuel and with exactly the steps as fuel.
fn runs_the_other_way(run: &RunCall, value: &[u8], steps: u32) {
    for fuel in [run.fuel, steps as u16] {
        let back = other_way(run, value, fuel);
        assert_eq!(back, Answer::Value { value: run.value.clone(), steps }, "{run:?}");
    }
    if steps > 0 {
        let short = other_way(run, value, steps as u16 - 1);
        assert!(matches!(short, Answer::Refused(refusal) if refusal.number == Number::Fuel), "{run:?}");
    }
}

fn other_way(run: &RunCall, value: &[u8], fuel: u16) -> Answer {
    let direction = match run.direction {
        Direction::Forward => Direction::Backward,
        Direction::Backward => Direction::Forward,
    };
    let workspace = limits::workspace(fuel);
    let value = value.to_vec();
    answer(&Call::Run(RunCall { direction, workspace, fuel, value, output: VALUE_BYTES, ..run.clone() }))
}

/// 16 means that no input exists; a short search finds none.
fn no_small_input(run: &RunCall) {
    let checked = check(&run.program).expect("16 comes after the check");
    let dynamic = tree(&checked.types, checked.signatures[run.function as usize].dynamic());
    for input in small_values(&dynamic, 14, 40) {
        let forward = RunCall {
            direction: Direction::Forward,
            workspace: limits::workspace(FUEL),
            output: VALUE_BYTES,
            fuel: FUEL,
            value: input,
            ..run.clone()
        };
        if let Answer::Value { value, .. } = answer(&Call::Run(forward)) {
            assert_ne!(value, run.value, "16 is contradicted: {run:?}");
        }
    }
}

fn tree(types: &Types, id: TypeId) -> Type {
    match types.shape(id) {
        Shape::Unit => unit_type(),
        Shape::Bound(skipped) => bound(skipped),
        Shape::Recursive(inner) => recursive(&tree(types, inner)),
        Shape::Product(a, b) => product(&tree(types, a), &tree(types, b)),
        Shape::Sum(a, b) => sum(&tree(types, a), &tree(types, b)),
    }
}

#[test]
fn both_ways_agree() {
    hold(11, 4_000);
}

#[test]
#[ignore = "takes a minute"]
fn both_ways_agree_at_length() {
    for seed in 100..120 {
        hold(seed, 10_000);
    }
}
