//! The engine's answers beside the second evaluator's.

use crate::engine;
use second::calls::{answer, Answer, Call};
use second::lines::{read_call, write_answer, write_call};
use second::make::lists::{book_list, Turn};
use second::make::Maker;
use second::rng::Rng;
use std::io::BufRead;

/// How many calls were compared, and how many answers differ.
#[derive(Default)]
pub struct Tally {
    pub compared: usize,
    pub different: usize,
}

/// Differences that are printed whole; the others are counted.
const SHOWN: usize = 5;

impl Tally {
    pub fn merge(&mut self, other: &Tally) {
        self.compared += other.compared;
        self.different += other.different;
    }

    /// Compares the engine's answer with the one expected, and hands it back.
    pub fn compare(&mut self, call: &Call, expected: &Answer) -> Option<Answer> {
        let got = engine::answer(call);
        let same = got.as_ref().is_ok_and(|got| got == expected);
        let said = || got.as_ref().map_or_else(String::clone, write_answer);
        self.count(same, || {
            let (line, expected) = (write_call(call), write_answer(expected));
            format!("{line}\n  engine: {}\n  second: {expected}", said())
        });
        got.ok()
    }

    pub fn compare_all(&mut self, calls: &[(Call, Answer)]) {
        for (call, expected) in calls {
            self.compare(call, expected);
        }
    }

    pub fn count(&mut self, same: bool, said: impl Fn() -> String) {
        self.compared += 1;
        if !same {
            self.different += 1;
            if self.different <= SHOWN {
                eprintln!("DIFFERS: {}", said());
            }
        }
    }
}

/// Calls in lines, each answered by the second evaluator.
pub fn compare_lines(input: impl BufRead) -> Result<Tally, String> {
    let mut tally = Tally::default();
    for (number, line) in input.lines().enumerate() {
        let line = line.map_err(|error| format!("standard input: {error}"))?;
        let call = read_call(&line).map_err(|error| format!("line {}: {error}", number + 1))?;
        tally.compare(&call, &answer(&call));
    }
    Ok(tally)
}

/// Fresh random calls, each alone.
pub fn compare_random(seed: u64, count: usize) -> Tally {
    shared_out(seed, count, |seed, count, tally| {
        for call in Maker::new(seed).take(count) {
            tally.compare(&call, &answer(&call));
        }
    })
}

/// Fresh lists of journal calls. Each call gets the bytes that the engine itself left, and is held to the plain book; after each call
/// both readers are.
pub fn compare_lists(seed: u64, count: usize) -> Tally {
    shared_out(seed, count, |seed, count, tally| {
        let mut rng = Rng::new(seed);
        for _ in 0..count {
            compare_list(book_list(&mut rng), tally);
        }
    })
}

fn compare_list(list: Vec<Turn>, tally: &mut Tally) {
    let mut left: Option<Vec<u8>> = None;
    for Turn { mut call, answer, reading } in list {
        let bytes = journal(&mut call);
        if let Some(mut left) = left.take() {
            left.resize(bytes.len(), 0);
            *bytes = left;
        }
        let before = bytes.clone();
        let after = match tally.compare(&call, &answer) {
            Some(Answer::Opened { journal } | Answer::Held { journal, .. }) => journal,
            _ => before,
        };
        tally.compare_all(&reading.calls(&after));
        left = Some(after);
    }
}

fn journal(call: &mut Call) -> &mut Vec<u8> {
    match call {
        Call::Open { journal, .. } | Call::Rollback { journal, .. } => journal,
        Call::Convert(call) => &mut call.journal,
        Call::Check { .. } | Call::Run(_) | Call::Read(_) => {
            unreachable!("calls that write no journal stand outside the list")
        }
    }
}

/// Work of so many parts, shared out to the processors, each with a seed of its own.
pub fn shared_out(seed: u64, count: usize, work: impl Fn(u64, usize, &mut Tally) + Sync) -> Tally {
    let workers = std::thread::available_parallelism().map_or(1, |n| n.get());
    let share = |worker: usize| count / workers + usize::from(worker < count % workers);
    std::thread::scope(|scope| {
        let work = &work;
        let started: Vec<_> = (0..workers)
            .map(|worker| {
                let thread = std::thread::Builder::new().stack_size(crate::stack::ROOM);
                let part = move || {
                    let mut tally = Tally::default();
                    work(seed + worker as u64, share(worker), &mut tally);
                    tally
                };
                thread.spawn_scoped(scope, part).expect("a thread starts")
            })
            .collect();
        let mut all = Tally::default();
        for thread in started {
            all.merge(&thread.join().expect("a worker ends"));
        }
        all
    })
}
