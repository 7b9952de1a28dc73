//! Time a step: what a call with just enough fuel takes beyond the same call with none, which does all but the run. So it
//! has its share of the workspace's clearing and of the value's bytes.

use super::measure::*;
use crate::engine;
use second::bench::{choice_samples, plus_sample, run_samples, scope_sample, Sample};
use second::calls::{answer, Answer, Call, Direction, RunCall};
use second::limits::{workspace, FUEL, VALUE_BYTES};

/// A sample both ways, with just the fuel that it needs.
struct Runs {
    name: String,
    forward: RunCall,
    backward: RunCall,
}

/// Nanoseconds a step.
struct Step {
    engine: f64,
    second: f64,
}

pub fn bench() -> Result<(), String> {
    let samples: Vec<Runs> = run_samples().iter().map(runs).collect::<Result<_, _>>()?;
    for direction in [Direction::Forward, Direction::Backward] {
        let ratios: Vec<f64> = samples.iter().map(|runs| runs.print_step(direction)).collect();
        print_ratio(&format!("{}, geometric mean", name(direction)), geometric_mean(&ratios));
    }
    bench_choices()?;
    bench_plus()?;
    [30, 120, 240].iter().try_for_each(|&variables| bench_scope(variables))
}

/// Runs that are mostly cases that choose by an ancilla.
fn bench_choices() -> Result<(), String> {
    for sample in choice_samples() {
        let runs = runs(&sample)?;
        runs.print_step(Direction::Forward);
        runs.print_step(Direction::Backward);
    }
    Ok(())
}

/// Section 6's plus with ancillae that the value is compared with at every case.
fn bench_plus() -> Result<(), String> {
    const DYNAMIC: usize = 250;
    let samples: Vec<Runs> =
        [0, 50, 250].map(|a| runs(&plus_sample(a, DYNAMIC))).into_iter().collect::<Result<_, _>>()?;
    for direction in [Direction::Forward, Direction::Backward] {
        let steps: Vec<Step> = samples.iter().map(|runs| runs.step(direction)).collect();
        let none = &steps[0];
        for (runs, step) in samples.iter().zip(&steps) {
            let [engine, second] = [step.engine / none.engine, step.second / none.second].map(figure);
            runs.print(direction, step, &format!("times a = 0: engine {engine}, second {second}"));
        }
    }
    Ok(())
}

/// Many variables in one scope, as far as the limit that both evaluators have lets them in.
fn bench_scope(variables: usize) -> Result<(), String> {
    let sample = scope_sample(variables);
    let check = Call::Check { workspace: workspace(0), program: sample.program.clone() };
    if [engine::answer(&check)?, answer(&check)].iter().any(|answer| *answer != Answer::Accepted) {
        print_remark(&sample.name, "over the limit: README, \"More variables\"");
        return Ok(());
    }
    let runs = runs(&sample)?;
    runs.print_step(Direction::Forward);
    runs.print_step(Direction::Backward);
    Ok(())
}

fn runs(sample: &Sample) -> Result<Runs, String> {
    let (forward, value) = just_enough(sample, Direction::Forward, &sample.value)?;
    let (backward, _) = just_enough(sample, Direction::Backward, &value)?;
    Ok(Runs { name: sample.name.clone(), forward, backward })
}

/// The call with just the fuel that it needs, and its value.
fn just_enough(sample: &Sample, direction: Direction, value: &[u8]) -> Result<(RunCall, Vec<u8>), String> {
    let call = RunCall {
        direction,
        workspace: workspace(FUEL),
        output: VALUE_BYTES,
        fuel: FUEL,
        function: sample.function,
        program: sample.program.clone(),
        ancillae: sample.ancillae.clone(),
        value: value.to_vec(),
    };
    agree(&Call::Run(call.clone()))?;
    match answer(&Call::Run(call.clone())) {
        Answer::Value { value, steps } => Ok((with_fuel(&call, steps as u16), value)),
        other => Err(format!("{} does not run: {other:?}", sample.name)),
    }
}

impl Runs {
    fn call(&self, direction: Direction) -> &RunCall {
        match direction {
            Direction::Forward => &self.forward,
            Direction::Backward => &self.backward,
        }
    }

    fn step(&self, direction: Direction) -> Step {
        let call = self.call(direction);
        let none = with_fuel(call, 0);
        let [engine, second, engine_rest, second_rest] = medians([
            &mut by_engine(call),
            &mut by_second(Call::Run(call.clone())),
            &mut by_engine(&none),
            &mut by_second(Call::Run(none.clone())),
        ]);
        let steps = f64::from(call.fuel);
        Step { engine: (engine - engine_rest) / steps, second: (second - second_rest) / steps }
    }

    fn print_step(&self, direction: Direction) -> f64 {
        self.print(direction, &self.step(direction), "")
    }

    fn print(&self, direction: Direction, step: &Step, remark: &str) -> f64 {
        let remark = if remark.is_empty() { String::new() } else { format!("; {remark}") };
        let remark = format!("{} steps{remark}", self.call(direction).fuel);
        let name = format!("{}, {}", name(direction), self.name);
        print_row(&name, "ns a step", step.engine, step.second, &remark)
    }
}
