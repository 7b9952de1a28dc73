//! Random calls, deterministic for a seed.

mod choices;
pub mod choose;
mod corners;
mod damage;
mod edges;
pub mod forms;
mod isos;
mod journals;
pub mod large;
pub mod lists;
mod readers;
mod runs;
pub mod scripts;
pub mod steer;
mod story;
mod terms;
pub mod trips;
mod types;
pub mod values;

use crate::calls::{answer, Answer, Call, ConvertCall, RunCall};
use crate::draft::Draft;
use crate::limits;
use crate::rng::Rng;
use std::collections::VecDeque;
use story::Story;

/// Calls in a hundred on programs over large types.
const LARGE: usize = 7;

/// Calls in a hundred of the rest on programs that are made for choosing by an ancilla.
const CHOOSING: usize = 18;

/// Calls in a hundred of the rest on programs that are made for steering.
const STEERED: usize = 18;

/// Calls of readers in a hundred of the rest.
const READERS: usize = 18;

/// An endless row of calls. The readers' calls, those made for steering and for choosing and those over large types stand among the others
/// and have generators of their own, so that what else a seed names stays as it is.
pub struct Maker {
    rng: Rng,
    ready: VecDeque<Call>,
    readers: Rng,
    ready_readers: VecDeque<Call>,
    steered: Rng,
    ready_steered: VecDeque<Call>,
    choosing: Rng,
    ready_choosing: VecDeque<Call>,
    large: Rng,
    ready_large: VecDeque<Call>,
    /// The journal of the newest call that had one, of those that are made for neither steering nor choosing.
    met: Vec<u8>,
}

impl Maker {
    pub fn new(seed: u64) -> Maker {
        Maker {
            rng: Rng::new(seed),
            ready: VecDeque::new(),
            readers: Rng::new(!seed),
            ready_readers: VecDeque::new(),
            steered: Rng::new(seed.rotate_left(32)),
            ready_steered: VecDeque::new(),
            choosing: Rng::new(!seed.rotate_left(32)),
            ready_choosing: VecDeque::new(),
            large: Rng::new(seed.rotate_left(16)),
            ready_large: VecDeque::new(),
            met: Vec::new(),
        }
    }

    fn large_call(&mut self) -> Option<Call> {
        if self.ready_large.is_empty() {
            self.ready_large.extend(large::large_calls(&mut self.large));
        }
        self.ready_large.pop_front()
    }

    fn choosing_call(&mut self) -> Option<Call> {
        while self.ready_choosing.is_empty() {
            self.ready_choosing.extend(choose::choosing_calls(&mut self.choosing));
        }
        self.ready_choosing.pop_front()
    }

    fn steered_call(&mut self) -> Option<Call> {
        while self.ready_steered.is_empty() {
            self.ready_steered.extend(steer::steered_calls(&mut self.steered));
        }
        self.ready_steered.pop_front()
    }

    fn reader_call(&mut self) -> Option<Call> {
        if self.ready_readers.is_empty() {
            self.ready_readers.extend(readers::reader_calls(&mut self.readers, &self.met));
        }
        self.ready_readers.pop_front()
    }

    fn fill(&mut self) {
        let rng = &mut self.rng;
        match rng.below(100) {
            0..=3 => {
                let program = sound_program(rng).shuffled(rng);
                self.check(program);
            }
            4..=17 => {
                let program = sound_program(rng).shuffled(rng);
                let program = damage::damaged(rng, &program);
                self.check(program);
            }
            18..=34 => {
                let rate = *rng.pick(&[15, 40, 80]);
                let program = terms::random_program(rng, rate).shuffled(rng);
                self.check(program);
            }
            35..=43 => {
                let program = edges::edge_program(rng);
                self.check(program);
            }
            44..=76 => self.runs(),
            77..=83 => self.long_runs(),
            _ => self.story(),
        }
    }

    fn check(&mut self, program: Vec<u8>) {
        let workspace = choices::workspace(&mut self.rng, 0);
        self.ready.push_back(Call::Check { workspace, program });
    }

    /// Some runs of one program, at times only rare ones, and now and then one on a damaged program.
    fn runs(&mut self) {
        let rng = &mut self.rng;
        let draft = sound_program(rng);
        let program = draft.shuffled(rng);
        let (tries, only_rare) = if rng.chance(25) { (12, true) } else { (rng.between(1, 3), false) };
        let make = |_| {
            let run = runs::run_call(rng, &draft, &program);
            run_or_journal_call(rng, run)
        };
        let calls = (0..tries).map(make).filter(|call| !only_rare || rare(call));
        self.ready.extend(calls.take(3));
    }

    /// Runs whose values come near the limit of size, most of them past it.
    fn long_runs(&mut self) {
        let rng = &mut self.rng;
        let draft = corners::sized_program(rng);
        let program = draft.shuffled(rng);
        let make = |_| {
            let run = runs::long_run_call(rng, &draft, &program);
            run_or_journal_call(rng, run)
        };
        let calls: Vec<Call> = (0..8).map(make).collect();
        self.ready.extend(calls.iter().find(|call| !rare(call)).cloned());
        self.ready.extend(calls.into_iter().filter(rare).take(3));
    }

    fn story(&mut self) {
        let rng = &mut self.rng;
        let draft = match rng.below(10) {
            0 | 1 => corners::shortening_program(rng),
            2 | 3 => corners::sized_program(rng),
            4 => corners::ancilla_program(rng),
            _ => sound_program(rng),
        };
        self.ready.extend(story_calls(rng, draft));
    }
}

/// The calls of a story, some of them on a damaged journal as well; of a long story only the rare ones.
fn story_calls(rng: &mut Rng, draft: Draft) -> Vec<Call> {
    let (mut story, open) = Story::begin(rng, draft);
    let long = rng.chance(25);
    let mut calls = if long { vec![] } else { vec![open] };
    for _ in 0..if long { 40 } else { rng.between(1, 8) } {
        let converts = rng.between(40, 80);
        let mut call = story.next_call(rng, converts);
        story.turn(&call, &answer(&call));
        if rng.chance(35) {
            call = journals::with_damaged_journal(rng, &story.draft, &call);
        } else if rng.chance(4) {
            call = with_damaged_program(rng, call);
        }
        if !long || rare(&call) {
            calls.push(call);
        }
    }
    calls
}

/// The run itself, or as a convert or rollback call, and now and then on a damaged program.
fn run_or_journal_call(rng: &mut Rng, run: RunCall) -> Call {
    let call = if rng.chance(20) { journals::as_journal_call(rng, &run) } else { Call::Run(run) };
    if rng.chance(3) {
        with_damaged_program(rng, call)
    } else {
        call
    }
}

/// Refused for the run itself, other than by fuel, or for want of room in the journal.
fn rare(call: &Call) -> bool {
    match answer(call) {
        Answer::Refused(refusal) => matches!(refusal.number as u8, 13..=16 | 20),
        _ => false,
    }
}

impl Iterator for Maker {
    type Item = Call;

    fn next(&mut self) -> Option<Call> {
        if self.large.chance(LARGE) {
            return self.large_call();
        }
        if self.choosing.chance(CHOOSING) {
            return self.choosing_call();
        }
        if self.steered.chance(STEERED) {
            return self.steered_call();
        }
        if self.readers.chance(READERS) {
            return self.reader_call();
        }
        while self.ready.is_empty() {
            self.fill();
        }
        let call = self.ready.pop_front()?;
        if let Some(journal) = call.journal() {
            self.met = journal.to_vec();
        }
        Some(call)
    }
}

/// A well-typed program of any family.
pub fn sound_program(rng: &mut Rng) -> Draft {
    match rng.below(10) {
        0..=2 => terms::random_program(rng, 0),
        3..=5 => isos::reversible_program(rng),
        6 => isos::list_program(rng),
        _ => corners::corner_program(rng),
    }
}

fn with_damaged_program(rng: &mut Rng, call: Call) -> Call {
    let mut damaged = |program: &[u8]| damage::damaged(rng, program);
    match call {
        Call::Check { workspace, program } => Call::Check { workspace, program: damaged(&program) },
        Call::Run(call) => {
            Call::Run(RunCall { program: damaged(&call.program), workspace: limits::workspace(call.fuel), ..call })
        }
        Call::Open { workspace, program, record, journal } => {
            Call::Open { workspace, program: damaged(&program), record, journal }
        }
        Call::Convert(call) => Call::Convert(ConvertCall { program: damaged(&call.program), ..call }),
        Call::Rollback { workspace, fuel, program, journal } => {
            Call::Rollback { workspace, fuel, program: damaged(&program), journal }
        }
        Call::Read(call) => Call::Read(call),
    }
}
