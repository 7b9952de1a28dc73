//! Made programs with steering (document 02, F-2) meet each way of help and each kind of refusal, and run both ways.

mod common;

use common::namings::{namings, Naming};
use second::calls::{answer, arguments, Answer, Call, Direction, RunCall};
use second::limits::FUEL;
use second::make::lists::book_list;
use second::make::steer::refused::REFUSED;
use second::make::steer::steered_trip;
use second::make::trips::RoundTrip;
use second::make::Maker;
use second::program::Program;
use second::refusal::{Number, Refusal};
use second::rng::Rng;
use second::run::{run, Start};
use second::tally::Tally;
use second::typing::check;
use second::value::Heap;

const TRIPS: usize = 3_000;

fn namings_of(program: &[u8]) -> Vec<Naming> {
    Program::read(program).map_or(Vec::new(), |program| namings(&program))
}

fn trips(seed: u64) -> impl Iterator<Item = RoundTrip> {
    let mut rng = Rng::new(seed);
    std::iter::repeat_with(move || steered_trip(&mut rng)).take(TRIPS)
}

#[test]
fn what_is_made_runs_both_ways() {
    let mut without_input = 0;
    for trip in trips(31) {
        let Answer::Value { value, steps } = answer(&Call::Run(trip.forward.clone())) else { panic!("{trip:?}") };
        assert_eq!((&value, u32::from(trip.forward.fuel)), (&trip.backward.value, steps));
        let back = answer(&Call::Run(trip.backward.clone()));
        assert_eq!(back, Answer::Value { value: trip.forward.value, steps }, "{:?}", trip.backward);
        let no_input = |call: &&RunCall| match answer(&Call::Run((*call).clone())) {
            Answer::Refused(refusal) => refusal.number == Number::NoInput,
            _ => false,
        };
        without_input += trip.others.iter().filter(no_input).count();
    }
    assert!(without_input > TRIPS / 3, "only {without_input} values had no input");
}

/// A way in which a naming is helped, and in how many of a hundred programs at least.
type Way = (&'static str, usize, fn(&Naming) -> bool);

const WAYS: [Way; 12] = [
    ("by a let", 40, |naming| naming.helpers().any(|help| !help.pair)),
    ("by a let pair", 30, |naming| naming.helpers().any(|help| help.pair)),
    ("by the outer let alone", 10, |naming| naming.lets.last().is_some_and(|inner| !inner.body_uses)),
    ("by the inner let alone", 8, |naming| naming.lets.first().is_some_and(|outer| !outer.body_uses)),
    ("by one between two that do not", 1, |naming| {
        naming.lets.len() > 2
            && naming.helpers().count() == 1
            && [naming.lets.first(), naming.lets.last()].iter().flatten().all(|end| !end.body_uses)
    }),
    ("in an argument of an argument", 20, |naming| naming.arguments > 1),
    ("with a let inside the argument", 10, |naming| naming.let_inside),
    ("of the parameter itself", 5, |naming| naming.of_parameter),
    ("bound inside an argument", 8, |naming| naming.bound_in_argument),
    ("in a branch", 20, |naming| naming.in_branch),
    ("in a scrutinee of the bound term", 10, |naming| naming.in_scrutinee),
    ("in a dynamic term of the bound term", 8, |naming| naming.in_dynamic_term),
];

#[test]
fn accepted_programs_are_helped_in_each_way() {
    let mut met = [0; WAYS.len()];
    for trip in trips(32) {
        let found = namings_of(&trip.forward.program);
        assert!(!found.is_empty() && !found.iter().any(Naming::in_vain), "{trip:?}");
        for (count, (_, _, way)) in met.iter_mut().zip(WAYS) {
            *count += usize::from(found.iter().any(way));
        }
    }
    for (count, (name, share, _)) in met.iter().zip(WAYS) {
        assert!(count * 100 >= share * TRIPS, "{name}: {count} of {TRIPS}");
    }
}

/// Backward, ancilla terms really read units that the taken branch never met.
#[test]
fn unmet_units_are_read() {
    let read = trips(33).filter(|trip| unmet(&trip.backward) > 0).count();
    assert!(read * 20 > TRIPS, "in {read} of {TRIPS} runs");
}

/// How often a backward run reads a variable that it has not met.
fn unmet(call: &RunCall) -> u32 {
    let mut checked = check(&call.program).expect("an accepted program");
    let mut heap = Heap::default();
    let RunCall { function, ancillae, value, .. } = call;
    let given = arguments(&mut checked, Direction::Backward, *function, ancillae, value, &mut heap);
    let (ancillae, value) = given.unwrap_or_else(|refusal| panic!("{refusal:?}: {call:?}"));
    let start = Start { program: &checked.program, function: *function, ancillae: &ancillae, value };
    run(&start, Direction::Backward, FUEL, &mut heap).map_or(0, |outcome| outcome.unmet)
}

#[test]
fn each_kind_is_refused_as_it_says() {
    let mut rng = Rng::new(34);
    for kind in &REFUSED {
        let mut tally = Tally::default();
        for _ in 0..100 {
            let call = Call::Check { workspace: 32_768, program: kind.draft(&mut rng).shuffled(&mut rng) };
            tally.add(&call, &answer(&call));
        }
        let met: Vec<(&str, usize)> = tally.places(kind.number as u8, "check").collect();
        assert_eq!(met, [(kind.place, 100)], "{}", kind.name);
    }
}

/// How often made calls meet a naming.
#[derive(Default)]
struct Met {
    accepted: usize,
    at_once: usize,
    late: usize,
    /// Refused for something in the bodies that a naming waits for in vain.
    before_late: usize,
    /// Of two namings refused at one point, the one that is written later has the lower place.
    later_is_lower: usize,
}

impl Met {
    /// The walk along the definition finds a let that helps each naming of an accepted program, and none for one that is refused.
    fn add(&mut self, call: &Call) {
        let Some(program) = call.program() else { return };
        match answer(call) {
            // What a row before typing refuses has no terms to walk.
            Answer::Refused(refusal) if (refusal.number as u8) < 6 => {}
            Answer::Refused(refusal) if (refusal.number as u8) < 9 => self.refused(refusal, &namings_of(program)),
            _ => {
                let found = namings_of(program);
                assert!(!found.iter().any(Naming::in_vain), "{call:?}");
                self.accepted += usize::from(!found.is_empty());
            }
        }
    }

    fn refused(&mut self, refusal: Refusal, found: &[Naming]) {
        let here = |naming: &&Naming| refusal.number == Number::Use && naming.place == refusal.place;
        let Some(naming) = found.iter().find(here) else {
            let late = |naming: &Naming| naming.in_vain() && !naming.lets.is_empty();
            self.before_late += usize::from(found.iter().any(late));
            return;
        };
        assert!(naming.in_vain(), "{refusal:?}: {found:?}");
        let Some(outermost) = naming.lets.first() else {
            self.at_once += 1;
            return;
        };
        self.late += 1;
        let first = found.iter().find(|other| other.in_vain() && other.lets.first() == Some(outermost));
        self.later_is_lower += usize::from(first.is_some_and(|first| first.place > naming.place));
    }
}

#[test]
fn made_calls_are_steered_often() {
    const CALLS: usize = 20_000;
    let mut met = Met::default();
    Maker::new(35).take(CALLS).for_each(|call| met.add(&call));
    for (name, count, least) in [
        ("accepted", met.accepted, CALLS / 10),
        ("refused at once", met.at_once, CALLS / 100),
        ("refused late", met.late, CALLS / 100),
        ("refused before a naming that waits", met.before_late, CALLS / 100),
        ("refused at a lower place that is written later", met.later_is_lower, CALLS / 800),
    ] {
        assert!(count >= least, "{name}: {count} of {CALLS}");
    }
}

/// Steered conversions stand in lists, and are rolled back.
#[test]
fn lists_convert_and_roll_back_by_steering() {
    let mut rng = Rng::new(36);
    let (mut converted, mut rolled_back) = (0, 0);
    for _ in 0..300 {
        for turn in book_list(&mut rng) {
            let steered = turn.call.program().is_some_and(|program| !namings_of(program).is_empty());
            if let (true, Answer::Held { .. }) = (steered, &turn.answer) {
                match turn.call {
                    Call::Convert(_) => converted += 1,
                    _ => rolled_back += 1,
                }
            }
        }
    }
    assert!(converted > 150 && rolled_back > 60, "{converted} conversions, {rolled_back} rollbacks");
}
