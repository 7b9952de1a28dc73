//! Calls that ask for much work within the limits, answered by both evaluators; the slowest is told by what it is made from.

use crate::compare::Tally;
use crate::engine::{self, pattern};
use second::calls::{answer, Answer, Call};
use second::limits::FUEL;
use second::refusal::Number;
use second::slow::{slow_calls, Slow};
use std::hint::black_box;
use std::time::{Duration, Instant};

/// A call, and how long it took.
struct Timed {
    number: usize,
    slow: Slow,
    fuel: u16,
    fuel_spent: bool,
    engine: Duration,
    second: Duration,
}

/// So many calls of a seed, each with fuel to compare some `work` bytes.
pub fn compare_slow(seed: u64, count: usize, work: usize) -> Tally {
    let mut tally = Tally::default();
    let timed: Vec<Timed> =
        slow_calls(seed).take(count).enumerate().map(|(at, slow)| timed(&mut tally, at + 1, slow, work)).collect();
    let most = |of: fn(&Timed) -> f64| timed.iter().max_by(|one, other| of(one).total_cmp(&of(other)));
    for (what, found) in [("slowest", most(Timed::with_the_most_fuel)), ("highest ratio", most(Timed::ratio))] {
        if let Some(found) = found {
            println!("{what}: {}", found.text());
        }
    }
    tally
}

fn timed(tally: &mut Tally, number: usize, slow: Slow, work: usize) -> Timed {
    let fuel = slow.fuel(work);
    let run = slow.call(fuel);
    let call = Call::Run(run.clone());
    let expected = answer(&call);
    tally.compare(&call, &expected);
    let fuel_spent = matches!(expected, Answer::Refused(refusal) if refusal.number == Number::Fuel);
    let second = shortest(|| drop(answer(&call)));
    let (mut space, mut output) = (pattern(run.workspace), pattern(run.output));
    let engine = shortest(|| {
        black_box(engine::run(&run, &mut space, &mut output));
    });
    Timed { number, slow, fuel, fuel_spent, engine, second }
}

/// How long work takes; of short work, on which a pause of the machine would tell, the shortest of a few times.
fn shortest(mut work: impl FnMut()) -> Duration {
    const SHORT: Duration = Duration::from_millis(10);
    const TIMES: usize = 3;
    let mut once = || {
        let start = Instant::now();
        work();
        start.elapsed()
    };
    let first = once();
    if first > SHORT {
        return first;
    }
    (1..TIMES).map(|_| once()).fold(first, Duration::min)
}

impl Timed {
    fn ratio(&self) -> f64 {
        self.engine.as_secs_f64() / self.second.as_secs_f64()
    }

    /// Seconds that the call would take with the most fuel; as long as it took, if it ended by itself.
    fn with_the_most_fuel(&self) -> f64 {
        let times = if self.fuel_spent { f64::from(FUEL) / f64::from(self.fuel) } else { 1.0 };
        self.engine.as_secs_f64() * times
    }

    fn text(&self) -> String {
        let Timed { number, slow, fuel, engine, second, .. } = self;
        let (whole, ratio) = (self.with_the_most_fuel(), self.ratio());
        let took = format!("{engine:.1?}, second {second:.1?}, ratio {ratio:.1}");
        let more = if self.fuel_spent { format!("; with fuel {FUEL} some {whole:.2} s") } else { String::new() };
        format!("call {number} with fuel {fuel}: {took}{more}: {slow:?}")
    }
}
