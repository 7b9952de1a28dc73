//! Whole calls of the most fuel whose cases compare long values: nested cases over a left branch of many leaves. Where a call
//! would take long, one of less fuel is measured and the time of the whole worked out from it, and the row says so.

use super::measure::*;
use second::calls::{Call, RunCall};
use second::limits::FUEL;
use second::slow::leaves::Leaves;
use second::slow::{equal_first, last_bit, made_alike, LEAVES, PAIRED_LEAVES};

/// The fuel of the first try; each further try has so many times the fuel of the one before.
const FIRST_FUEL: u16 = 256;
const MORE: u16 = 4;

/// In nanoseconds: a call that takes longer is not made; a try that takes as long is enough to work out the whole from.
const LONGEST: f64 = 1e9;
const ENOUGH: f64 = 1e8;

const SECOND: f64 = 1e9;

const ROUNDS: usize = 3;

pub fn bench() -> Result<(), String> {
    for leaves in [10, 100, LEAVES] {
        bench_leaves(&format!("{leaves} leaves that differ in the last bit"), &last_bit(leaves))?;
    }
    for leaves in [10, 100, PAIRED_LEAVES] {
        bench_leaves(&format!("{leaves} leaves, pairs, equal first parts"), &equal_first(leaves))?;
    }
    if let Some(leaves) = made_alike(LEAVES) {
        bench_leaves(&format!("{LEAVES} leaves made to share the value's fingerprint"), &leaves)?;
    }
    Ok(())
}

fn bench_leaves(name: &str, leaves: &Leaves) -> Result<(), String> {
    let call = leaves.call(FUEL);
    agree(&Call::Run(with_fuel(&call, FIRST_FUEL)))?;
    let by_engine_with = affordable(&call, |call| time(1, &mut by_engine(call)));
    let by_second_with = affordable(&call, |call| time(1, &mut by_second(Call::Run(call.clone()))));
    let tried = with_fuel(&call, by_engine_with);
    let second = Call::Run(with_fuel(&call, by_second_with));
    let [engine, second] = by_turns(ROUNDS, [1, 1], [&mut by_engine(&tried), &mut by_second(second)]);
    let fuels = [("engine", by_engine_with), ("second", by_second_with)];
    let remarks: Vec<String> = fuels.iter().filter_map(|&(name, fuel)| remark(name, fuel)).collect();
    let [engine, second] = [whole(engine, by_engine_with), whole(second, by_second_with)];
    print_row(name, "s a call", engine / SECOND, second / SECOND, &remarks.join("; "));
    Ok(())
}

/// The most fuel, if the call then ends soon enough; else one with which it takes long enough to tell.
fn affordable(call: &RunCall, time: impl Fn(&RunCall) -> f64) -> u16 {
    let mut fuel = FIRST_FUEL;
    loop {
        let taken = time(&with_fuel(call, fuel));
        if whole(taken, fuel) <= LONGEST {
            return FUEL;
        }
        if taken >= ENOUGH {
            return fuel;
        }
        fuel = fuel.saturating_mul(MORE);
    }
}

/// All fuel is spent, and each pass of the cases takes as long as the one before: the time grows as the fuel does.
fn whole(time: f64, fuel: u16) -> f64 {
    time * f64::from(FUEL) / f64::from(fuel)
}

fn remark(name: &str, fuel: u16) -> Option<String> {
    (fuel < FUEL).then(|| format!("{name} extrapolated from fuel {fuel}"))
}
