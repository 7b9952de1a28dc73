//! Measuring by turns, so that what else the machine does falls on both evaluators; medians; the table's rows.

use crate::engine;
use second::calls::{answer, Call, Direction, RunCall};
use second::limits::workspace;
use second::lines::write_call;
use std::hint::black_box;
use std::time::Instant;

const ROUNDS: usize = 31;

/// Nanoseconds: short work is done over and over, so that the clock is read no more often than this.
const BATCH: f64 = 4e5;

/// Characters of a printed call that tell which one it is.
const SHOWN: usize = 200;

/// The median times of several pieces of work, in nanoseconds.
pub fn medians<const N: usize>(mut works: [&mut dyn FnMut(); N]) -> [f64; N] {
    let batches = works.each_mut().map(|work| batch(work));
    by_turns(ROUNDS, batches, works)
}

/// The same, with the rounds, and how often each piece is done in a round.
pub fn by_turns<const N: usize>(rounds: usize, batches: [u32; N], mut works: [&mut dyn FnMut(); N]) -> [f64; N] {
    let mut times = [const { Vec::new() }; N];
    for _ in 0..rounds {
        for ((work, times), batch) in works.iter_mut().zip(&mut times).zip(batches) {
            times.push(time(batch, work));
        }
    }
    times.map(median)
}

/// How often work is done in a batch. Doing it also warms what it uses.
fn batch(work: &mut dyn FnMut()) -> u32 {
    let once = time(1, work).min(time(1, work));
    (BATCH / once).ceil() as u32
}

/// Nanoseconds for work done once, by a batch.
pub fn time(batch: u32, work: &mut dyn FnMut()) -> f64 {
    let start = Instant::now();
    for _ in 0..batch {
        work();
    }
    start.elapsed().as_nanos() as f64 / f64::from(batch)
}

fn median(mut times: Vec<f64>) -> f64 {
    times.sort_by(f64::total_cmp);
    times[times.len() / 2]
}

pub fn geometric_mean(ratios: &[f64]) -> f64 {
    (ratios.iter().map(|ratio| ratio.ln()).sum::<f64>() / ratios.len() as f64).exp()
}

/// A run by the engine, in a workspace of its own that is zero as the run before left it.
pub fn by_engine(call: &RunCall) -> impl FnMut() + '_ {
    let mut space = vec![0; call.workspace];
    let mut output = vec![0; call.output];
    move || {
        black_box(engine::run(black_box(call), &mut space, &mut output));
    }
}

pub fn by_second(call: Call) -> impl FnMut() {
    move || {
        black_box(answer(black_box(&call)));
    }
}

pub fn with_fuel(call: &RunCall, fuel: u16) -> RunCall {
    RunCall { workspace: workspace(fuel), fuel, ..call.clone() }
}

/// What is measured is the same work: both answer the call, and alike.
pub fn agree(call: &Call) -> Result<(), String> {
    if engine::answer(call)? == answer(call) {
        return Ok(());
    }
    let line: String = write_call(call).chars().take(SHOWN).collect();
    Err(format!("the engine and the second evaluator differ: {line}"))
}

pub fn name(direction: Direction) -> &'static str {
    match direction {
        Direction::Forward => "forward",
        Direction::Backward => "backward",
    }
}

pub fn print_head() {
    print_cells("", "engine", "second", "", "ratio", "");
    println!("|---|---|---|---|---|---|");
}

/// A row; hands back the ratio.
pub fn print_row(name: &str, unit: &str, engine: f64, second: f64, remark: &str) -> f64 {
    let ratio = engine / second;
    print_cells(name, &figure(engine), &figure(second), unit, &figure(ratio), remark);
    ratio
}

/// A row with a ratio alone.
pub fn print_ratio(name: &str, ratio: f64) {
    print_cells(name, "", "", "", &figure(ratio), "");
}

/// A row without figures.
pub fn print_remark(name: &str, remark: &str) {
    print_cells(name, "", "", "", "", remark);
}

fn print_cells(name: &str, engine: &str, second: &str, unit: &str, ratio: &str, remark: &str) {
    println!("| {name:<50} | {engine:>8} | {second:>8} | {unit:<9} | {ratio:>6} | {remark} |");
}

/// Three places or so.
pub fn figure(number: f64) -> String {
    let places = match number.abs() {
        0.0..1.0 => 3,
        1.0..10.0 => 2,
        10.0..100.0 => 1,
        _ => 0,
    };
    format!("{number:.places$}")
}
