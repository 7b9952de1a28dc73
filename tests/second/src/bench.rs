//! Time per step, per term and per journal call.

use crate::calls::{answer, arguments, Answer, Call, ConvertCall, Direction};
use crate::draft::{boolean, Draft, Function};
use crate::large::{Family, Large, Program};
use crate::limits::{self, FUEL};
use crate::readers::{ReadCall, Reader};
use crate::run::{run, Start};
use crate::samples::choosing::{choices_to_the_left, choices_to_the_right};
use crate::samples::{
    beside_ancillae, doubled, flipped_by_part, lets, library, list_bytes, longest_journal, map, nat_bytes, not,
    plus, reverse, snoc, tuple_bytes, turned,
};
use crate::typing::check;
use crate::value::Heap;
use std::hint::black_box;
use std::time::Instant;

const PLUS: u16 = 0;
const MAP: u16 = 3;
const REVERSE: u16 = 5;

/// A run to measure.
pub struct Sample {
    pub name: String,
    pub program: Vec<u8>,
    pub function: u16,
    pub ancillae: Vec<u8>,
    pub value: Vec<u8>,
}

pub fn run_samples() -> Vec<Sample> {
    vec![
        plus_sample(0, 255),
        plus_sample(2, 100),
        list_sample("reverse of 92", REVERSE, 92),
        list_sample("map over 125", MAP, 125),
        lets_sample(27),
        ancillae_sample(7, 200),
    ]
}

pub fn plus_sample(ancilla: usize, dynamic: usize) -> Sample {
    Sample {
        name: format!("plus {ancilla} of {dynamic}"),
        program: library().bytes(),
        function: PLUS,
        ancillae: nat_bytes(ancilla),
        value: nat_bytes(dynamic),
    }
}

fn list_sample(name: &str, function: u16, count: usize) -> Sample {
    let bits: Vec<Vec<u8>> = (0..count).map(|n| vec![1 + (n % 3 / 2) as u8, 0]).collect();
    let (name, program) = (name.to_string(), library().bytes());
    Sample { name, program, function, ancillae: Vec::new(), value: list_bytes(&bits) }
}

/// Calls to a function of few steps are doubled so often that its steps are most of the call.
const DOUBLINGS: usize = 5;

fn lets_sample(count: usize) -> Sample {
    Sample {
        name: format!("{count} nested lets"),
        program: doubled(lets(count), DOUBLINGS).bytes(),
        function: DOUBLINGS as u16,
        ancillae: Vec::new(),
        value: vec![1, 0],
    }
}

/// Runs that are mostly cases that choose by an ancilla. By left branches: first match would ask the cases inside each case for the
/// value on the way back. By right branches: first match would refuse, since the left branch of each case may yield the value.
pub fn choice_samples() -> Vec<Sample> {
    const CHOICES: usize = 28;
    let sample = |name: &str, function: Function, ancilla: [u8; 2]| Sample {
        name: format!("{CHOICES} choices, {name}"),
        program: doubled(function, DOUBLINGS).bytes(),
        function: DOUBLINGS as u16,
        ancillae: ancilla.to_vec(),
        value: vec![1, 0],
    };
    vec![
        sample("left branches", choices_to_the_left(CHOICES), [1, 0]),
        sample("right branches", choices_to_the_right(CHOICES), [2, 0]),
    ]
}

fn ancillae_sample(count: usize, dynamic: usize) -> Sample {
    Sample {
        name: format!("{count} ancillae beside {dynamic}"),
        program: Draft { functions: vec![beside_ancillae(0, count)] }.bytes(),
        function: 0,
        ancillae: [2, 0].repeat(count),
        value: nat_bytes(dynamic),
    }
}

/// About so many variables in one scope. `limits::VARIABLES` may have to be lifted for its program to be accepted.
pub fn scope_sample(variables: usize) -> Sample {
    let let_pairs = variables / 2;
    Sample {
        name: format!("{} variables in scope", 2 * let_pairs + 1),
        program: doubled(turned(let_pairs), DOUBLINGS).bytes(),
        function: DOUBLINGS as u16,
        ancillae: Vec::new(),
        value: tuple_bytes(let_pairs),
    }
}

pub fn bench() {
    for sample in run_samples().iter().chain(&choice_samples()) {
        bench_run(sample);
    }
    bench_check();
    bench_journal(&library().bytes());
    bench_readers();
}

fn bench_run(sample: &Sample) {
    let Sample { name, program, function, ancillae, value } = sample;
    let forward = measure_run(program, *function, ancillae, value, Direction::Forward);
    let backward = measure_run(program, *function, ancillae, &forward.result, Direction::Backward);
    println!(
        "{name}: {} steps, forward {:.1} ns a step, backward {:.1} ns a step",
        forward.steps, forward.nanoseconds, backward.nanoseconds
    );
}

struct Measured {
    result: Vec<u8>,
    steps: u32,
    nanoseconds: f64,
}

/// Only the run itself is timed, not the check of the program.
fn measure_run(program: &[u8], function: u16, ancillae: &[u8], value: &[u8], direction: Direction) -> Measured {
    let mut checked = check(program).expect("the library is well-typed");
    let mut measured = Measured { result: Vec::new(), steps: 0, nanoseconds: f64::MAX };
    for _ in 0..200 {
        let mut heap = Heap::default();
        let (ancillae, value) =
            arguments(&mut checked, direction, function, ancillae, value, &mut heap).expect("typed arguments");
        let start = Start { program: &checked.program, function, ancillae: &ancillae, value };
        let clock = Instant::now();
        let outcome = run(&start, direction, FUEL, &mut heap);
        let elapsed = clock.elapsed().as_nanos() as f64;
        let outcome = outcome.expect("the run is within its limits");
        measured.nanoseconds = measured.nanoseconds.min(elapsed / outcome.steps as f64);
        measured.steps = outcome.steps;
        measured.result = heap.store(outcome.value);
    }
    measured
}

fn bench_check() {
    for (program, terms) in [largest_program(), many_functions()] {
        let best = best_of(500, || black_box(check(black_box(&program))).is_ok());
        println!("check of {terms} terms, {} bytes: {:.1} ns a term", program.len(), best / terms as f64);
    }
    for family in Family::ALL {
        let Program { bytes, terms, types } = Large::largest(family).program();
        let best = best_of(100, || black_box(check(black_box(&bytes))).is_ok());
        let each = best / terms as f64;
        println!("check of {terms} terms over {types} types, {}: {each:.1} ns a term", family.name());
    }
}

/// List functions over and over until the program is near 1,024 terms: its bytes, and its terms.
pub fn largest_program() -> (Vec<u8>, usize) {
    let element = boolean();
    filled(|number| match number % 3 {
        _ if number == 0 => not(),
        0 => reverse(number, &element, number - 1),
        1 => map(number, &element, 0),
        _ => snoc(number, &element),
    })
}

/// As many functions as there can be, most of them small, over a few types: what a converter of many fields looks like.
pub fn many_functions() -> (Vec<u8>, usize) {
    const FIELDS: usize = 8;
    let element = boolean();
    filled(|number| match number % 6 {
        0 => not(),
        1 => plus(number),
        2 => flipped_by_part(),
        3 => snoc(number, &element),
        4 => turned(FIELDS),
        _ => map(number, &element, 0),
    })
}

/// Functions by their numbers, until the next would pass a limit: the program's bytes, and its terms.
fn filled(function: impl Fn(usize) -> Function) -> (Vec<u8>, usize) {
    let mut functions = Vec::new();
    let mut terms = 0;
    loop {
        let next = function(functions.len());
        if terms + next.body.count() > limits::TERMS || functions.len() == limits::FUNCTIONS {
            break;
        }
        terms += next.body.count();
        functions.push(next);
    }
    (Draft { functions }.bytes(), terms)
}

fn bench_journal(program: &[u8]) {
    let opened = Call::Open {
        workspace: limits::workspace(0),
        program: program.to_vec(),
        record: nat_bytes(100),
        journal: vec![0; 2048],
    };
    let Answer::Opened { journal } = answer(&opened) else { panic!("the journal opens") };
    let convert = Call::Convert(ConvertCall {
        workspace: limits::workspace(FUEL),
        fuel: FUEL,
        function: PLUS,
        program: program.to_vec(),
        ancillae: nat_bytes(2),
        journal,
    });
    let Answer::Held { journal, steps, .. } = answer(&convert) else { panic!("the record converts") };
    let rollback =
        Call::Rollback { workspace: limits::workspace(FUEL), fuel: FUEL, program: program.to_vec(), journal };
    for (name, call) in [("convert", convert), ("rollback", rollback)] {
        let best = best_of(500, || matches!(black_box(answer(black_box(&call))), Answer::Held { .. }));
        println!("{name} of {steps} steps, program of {} bytes checked: {:.1} us", program.len(), best / 1000.0);
    }
}

fn bench_readers() {
    let journal = longest_journal();
    for reader in Reader::BOTH {
        let call = Call::Read(ReadCall { reader, output: journal.len(), journal: journal.clone() });
        let best = best_of(500, || !matches!(black_box(answer(black_box(&call))), Answer::Refused(_)));
        println!("{} of a journal of {} bytes: {:.1} us", reader.name(), journal.len(), best / 1000.0);
    }
}

/// The shortest of several timings, in nanoseconds.
fn best_of(times: usize, mut work: impl FnMut() -> bool) -> f64 {
    let mut best = f64::MAX;
    for _ in 0..times {
        let start = Instant::now();
        assert!(work(), "the measured work is accepted");
        best = best.min(start.elapsed().as_nanos() as f64);
    }
    best
}
