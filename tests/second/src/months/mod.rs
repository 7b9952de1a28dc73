//! The months of one machine as a script: a stroke record that grows stroke by stroke, firmware that turns it to ticks and
//! turns it round, returns to the old firmware by rollback, quiet weeks of self-tests, restarts, buffers that grow and shrink,
//! and refused calls between. Each call is answered by the plain book; what the record should be is known apart from it, by the
//! machine itself.

pub mod firmware;
mod refused;

use crate::calls::Answer;
use crate::journal::Journal;
use crate::limits::{self, CONVERSIONS, VALUE_BYTES};
use crate::refusal::Number;
use crate::rng::Rng;
use crate::samples::nat_bytes;
use crate::script::{line, Act, Player, Step};
use firmware::{Form, Record, Stroke, LATER, STROKE, TO_TICKS, TURN_ROUND};

/// Bytes of the whole journal's buffer; each call has a front part of it.
pub const BUFFER: usize = 4096;

/// What the machine's calls may take, and the workspace that is lent to all of them.
const MOST_FUEL: u16 = 30_000;
pub const WORKSPACE: usize = limits::workspace(MOST_FUEL);

/// Strokes that a restart keeps.
const KEPT: usize = 8;

pub struct Months {
    pub program: Vec<u8>,
    pub script: Vec<u8>,
    /// A line for each call, as the book answers.
    pub answers: Vec<u8>,
    /// The journal in the whole buffer, as the book writes it.
    pub journal: Vec<u8>,
    pub tally: Tally,
}

/// What a list of calls came to.
#[derive(Clone, Default, Debug)]
pub struct Tally {
    pub calls: usize,
    pub opened: usize,
    pub converted: usize,
    pub rolled_back: usize,
    /// By the refusal's number.
    pub refused: [usize; 21],
    /// Turns to the tick form, and returns to the old one.
    pub upgrades: usize,
    pub returns: usize,
    pub most_standing: usize,
    pub longest_record: usize,
}

/// The machine's life over so many weeks, with so many strokes a day, or self-tests in a quiet week.
pub fn months(seed: u64, weeks: usize, strokes_a_day: usize) -> Months {
    let mut machine = Machine::new(seed);
    for _ in 0..weeks {
        let quiet = machine.rng.chance(30);
        for _ in 0..7 {
            machine.day(strokes_a_day, quiet);
        }
        machine.later(1);
    }
    let journal = machine.player.journal(BUFFER);
    let Machine { script, answers, tally, .. } = machine;
    Months { program: firmware::program(), script, answers, journal, tally }
}

struct Machine {
    rng: Rng,
    player: Player,
    script: Vec<u8>,
    answers: Vec<u8>,
    tally: Tally,
    /// The buffer that the firmware has now.
    buffer: usize,
    record: Record,
    /// The record that each standing conversion met, oldest first.
    met: Vec<Record>,
}

impl Machine {
    fn new(seed: u64) -> Machine {
        let mut machine = Machine {
            rng: Rng::new(seed),
            player: Player::new(firmware::program(), WORKSPACE),
            script: Vec::new(),
            answers: Vec::new(),
            tally: Tally::default(),
            buffer: BUFFER / 4,
            // Of no weeks and no strokes both forms would have the same bytes.
            record: Record { form: Form::Old, weeks: 1, strokes: Vec::new() },
            met: Vec::new(),
        };
        machine.open(machine.record.clone());
        machine
    }

    fn day(&mut self, strokes: usize, quiet: bool) {
        for _ in 0..strokes {
            if quiet {
                self.later(0);
            } else {
                let stroke = Stroke { seconds: self.rng.below(16) as u8, volume: self.rng.below(8) as u8 };
                self.log(stroke);
            }
            if self.rng.chance(8) {
                self.refused_call();
            }
            if !quiet {
                self.firmware_changes();
            }
        }
        if self.rng.chance(20) {
            self.new_buffer();
        }
    }

    fn firmware_changes(&mut self) {
        match self.record.form {
            Form::Old if self.rng.chance(5) => self.upgrade(),
            Form::Tick if self.rng.chance(7) => self.return_to_old(),
            Form::Tick if self.rng.chance(7) => {
                self.convert(TURN_ROUND, Vec::new(), |record| record.strokes.reverse());
            }
            _ => {}
        }
    }

    /// So many weeks more; a self-test is none more.
    fn later(&mut self, weeks: usize) {
        self.convert(LATER[self.record.form as usize], nat_bytes(weeks), |record| record.weeks += weeks);
    }

    /// The stroke stands first afterwards.
    fn log(&mut self, stroke: Stroke) {
        let form = self.record.form;
        self.convert(STROKE[form as usize], stroke.bytes(form), |record| record.strokes.insert(0, stroke));
    }

    /// The tick form is longer, and new firmware starts with room for strokes.
    fn upgrade(&mut self) {
        if self.record.strokes.len() > 2 * KEPT {
            self.restart(Form::Old);
        }
        if self.convert(TO_TICKS, Vec::new(), |record| record.form = Form::Tick) {
            self.tally.upgrades += 1;
        }
    }

    /// Conversions are rolled back until the record is in the old form. Strokes since then are logged again, a few of them. Where
    /// a restart in the tick form came between, no conversion leads back: the workshop opens with an old record.
    fn return_to_old(&mut self) {
        let since: Vec<Stroke> = self.record.strokes.iter().take(3).copied().collect();
        while self.record.form == Form::Tick && !self.met.is_empty() {
            self.rollback();
        }
        if self.record.form == Form::Tick {
            self.act(Act::Rollback { fuel: MOST_FUEL }, self.buffer);
            self.restart(Form::Old);
        } else {
            self.tally.returns += 1;
            since.into_iter().rev().for_each(|stroke| self.log(stroke));
        }
    }

    /// An accepted conversion, after a restart or in a longer buffer if need be. It is refused for good only where the record
    /// stays too long.
    fn convert(&mut self, function: u16, ancillae: Vec<u8>, change: impl Fn(&mut Record)) -> bool {
        for _ in 0..3 {
            let fuel = self.fuel(function, &ancillae);
            let act = Act::Convert { fuel, function, ancillae: ancillae.clone() };
            match self.act(act, self.buffer) {
                Answer::Held { .. } => {
                    self.met.push(self.record.clone());
                    change(&mut self.record);
                    self.settled();
                    return true;
                }
                Answer::Refused(refusal) if refusal.number == Number::Size => self.restart(self.record.form),
                Answer::Refused(_) if self.met.len() == CONVERSIONS => self.restart(self.record.form),
                Answer::Refused(_) => self.buffer = BUFFER,
                other => unreachable!("a conversion is held or refused: {:?}", line(&other)),
            }
        }
        false
    }

    /// Plenty, or now and then just enough.
    fn fuel(&mut self, function: u16, ancillae: &[u8]) -> u16 {
        if !self.rng.chance(10) {
            return MOST_FUEL;
        }
        let act = Act::Convert { fuel: MOST_FUEL, function, ancillae: ancillae.to_vec() };
        match self.player.clone().play(&Step { buffer: BUFFER, act }) {
            Answer::Held { steps, .. } => steps as u16,
            _ => MOST_FUEL,
        }
    }

    /// The newest conversion goes back, in a buffer that is long enough and now and then with just the fuel that it took.
    fn rollback(&mut self) {
        let steps = Journal::read(&self.player.fields)
            .and_then(|journal| journal.conversions.last().map(|newest| newest.steps))
            .expect("a conversion stands");
        let fuel = if self.rng.chance(30) { steps as u16 } else { MOST_FUEL };
        if self.rng.chance(10) {
            let short = self.rng.below(steps as usize) as u16;
            self.act(Act::Rollback { fuel: short }, self.buffer);
        }
        self.buffer = BUFFER;
        let answer = self.act(Act::Rollback { fuel }, self.buffer);
        assert!(
            matches!(answer, Answer::Held { .. }),
            "a rollback with enough of everything: {:?}",
            line(&answer)
        );
        self.record = self.met.pop().expect("a conversion stands");
        self.settled();
    }

    /// The record of the newest strokes, with nothing standing.
    fn restart(&mut self, form: Form) {
        let mut record = Record { form, ..self.record.clone() };
        record.strokes.truncate(KEPT);
        self.open(record);
    }

    fn open(&mut self, record: Record) {
        let needed = 3 + record.bytes().len();
        let buffer = self.buffer.max(needed).max(self.player.fields.len());
        let answer = self.act(Act::Open { record: record.bytes() }, buffer);
        assert!(matches!(answer, Answer::Opened { .. }), "an open with enough of everything: {:?}", line(&answer));
        self.record = record;
        self.met.clear();
        self.settled();
    }

    /// Other firmware, another buffer: from just the fields to the whole. A shorter one loses only zeros.
    fn new_buffer(&mut self) {
        self.buffer = self.rng.between(self.player.fields.len(), BUFFER);
    }

    /// One call of the script, in a buffer that holds the fields.
    fn act(&mut self, act: Act, buffer: usize) -> Answer {
        let step = Step { buffer: buffer.max(self.player.fields.len()), act };
        step.write(&mut self.script);
        let answer = self.player.play(&step);
        self.answers.extend(line(&answer));
        self.tally.add(&step.act, &answer);
        answer
    }

    /// The held record is what the machine knows it to be, and as many conversions stand.
    fn settled(&mut self) {
        let journal = Journal::read(&self.player.fields).expect("the book writes a journal");
        assert_eq!(journal.held, self.record.bytes());
        assert_eq!(journal.conversions.len(), self.met.len());
        self.tally.most_standing = self.tally.most_standing.max(self.met.len());
        self.tally.longest_record = self.tally.longest_record.max(journal.held.len());
        assert!(journal.held.len() <= VALUE_BYTES);
    }
}

impl Tally {
    fn add(&mut self, act: &Act, answer: &Answer) {
        self.calls += 1;
        match (answer, act) {
            (Answer::Refused(refusal), _) => self.refused[refusal.number as usize] += 1,
            (_, Act::Open { .. }) => self.opened += 1,
            (_, Act::Convert { .. }) => self.converted += 1,
            (_, Act::Rollback { .. }) => self.rolled_back += 1,
        }
    }

    pub fn text(&self) -> String {
        let refused: Vec<String> = (1..self.refused.len())
            .filter(|&number| self.refused[number] > 0)
            .map(|number| format!("{number}: {}", self.refused[number]))
            .collect();
        format!(
            "{} calls: {} opened, {} converted, {} rolled back, {} refused ({}); {} upgrades, {} returns, \
             at most {} standing, records up to {} bytes",
            self.calls,
            self.opened,
            self.converted,
            self.rolled_back,
            self.refused.iter().sum::<usize>(),
            refused.join(", "),
            self.upgrades,
            self.returns,
            self.most_standing,
            self.longest_record
        )
    }
}
