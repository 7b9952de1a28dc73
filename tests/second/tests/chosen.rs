//! Made programs with cases that choose by an ancilla (document 02, F-3) are accepted, choose in each way, and run both ways.

mod common;

use common::choices::{cases, Case};
use second::calls::{answer, arguments, under_first_match, Answer, Call, RunCall};
use second::make::choose::{choosing_program, choosing_trip, named_choices};
use second::make::lists::book_list;
use second::make::trips::RoundTrip;
use second::make::Maker;
use second::program::{Program, Term};
use second::refusal::Number;
use second::rng::Rng;
use second::run::{watched, Seen, Start};
use second::typing::{check, Checked};
use second::value::Heap;

const TRIPS: usize = 3_000;

fn trips(seed: u64) -> impl Iterator<Item = RoundTrip> {
    let mut rng = Rng::new(seed);
    std::iter::repeat_with(move || choosing_trip(&mut rng)).take(TRIPS)
}

fn checked(program: &[u8]) -> Checked {
    check(program).unwrap_or_else(|refusal| panic!("{refusal:?}: {program:?}"))
}

#[test]
fn what_is_made_has_choices() {
    let mut rng = Rng::new(41);
    for _ in 0..TRIPS {
        let program = checked(&choosing_program(&mut rng).shuffled(&mut rng)).program;
        assert!(program.by_ancilla.contains(&true), "{program:?}");
    }
    checked(&named_choices().bytes());
}

/// A walk along the definition finds the same cases to choose by an ancilla, in programs of all kinds.
#[test]
fn each_case_is_judged_as_the_definition_says() {
    let mut judged = [0; 2];
    for call in Maker::new(42).take(6_000) {
        let Some(Ok(checked)) = call.program().map(check) else { continue };
        for Case { entry, chooses, .. } in cases(&checked.program) {
            assert_eq!(checked.program.by_ancilla[entry as usize], chooses, "{entry}: {call:?}");
            judged[usize::from(chooses)] += 1;
        }
    }
    assert!(judged.iter().all(|count| *count > 3_000), "{judged:?}");
}

/// Whether the call takes the right branch of a choice whose left branch may yield the value: first match would refuse it there.
fn passes_first_match(call: &RunCall) -> bool {
    match under_first_match(call) {
        Answer::Refused(refusal) if refusal.number == Number::FirstMatch => {
            let by_ancilla = checked(&call.program).program.by_ancilla;
            by_ancilla[refusal.place as usize] && answer(&Call::Run(call.clone())) != Answer::Refused(refusal)
        }
        _ => false,
    }
}

/// 15 is never met at a case that chooses by an ancilla.
fn no_choice_is_refused(call: &RunCall) -> Answer {
    let answer = answer(&Call::Run(call.clone()));
    if let Answer::Refused(refusal) = &answer {
        if refusal.number == Number::FirstMatch {
            assert!(!checked(&call.program).program.by_ancilla[refusal.place as usize], "{call:?}");
        }
    }
    answer
}

#[test]
fn what_is_made_runs_both_ways() {
    let (mut passed, mut without_input, mut matched) = (0, 0, 0);
    for trip in trips(43) {
        let Answer::Value { value, steps } = no_choice_is_refused(&trip.forward) else { panic!("{trip:?}") };
        assert_eq!((&value, u32::from(trip.forward.fuel)), (&trip.backward.value, steps));
        let back = no_choice_is_refused(&trip.backward);
        assert_eq!(back, Answer::Value { value: trip.forward.value.clone(), steps }, "{:?}", trip.backward);
        passed += usize::from(passes_first_match(&trip.forward));
        for call in &trip.others {
            match no_choice_is_refused(call) {
                Answer::Refused(refusal) if refusal.number == Number::NoInput => without_input += 1,
                Answer::Refused(refusal) if refusal.number == Number::FirstMatch => matched += 1,
                _ => {}
            }
        }
    }
    assert!(passed * 100 > TRIPS * 40, "only {passed} pass first match");
    assert!(without_input > TRIPS / 4 && matched > TRIPS / 50, "{without_input} without input, {matched} matched");
}

/// A way in which a case chooses, or comes near to it, and in how many of a hundred programs at least.
type Way = (&'static str, usize, fn(&Case) -> bool);

const WAYS: [Way; 14] = [
    ("by an ancilla itself", 40, |case| case.on_ancilla),
    ("by an ancilla unrolled", 5, |case| case.on_unrolled),
    ("by a call", 15, |case| case.chooses && case.on_call),
    ("by a case in the scrutinee", 15, |case| case.chooses && case.on_case),
    ("by a variable that the scrutinee binds", 10, |case| case.chooses && case.on_bound),
    ("without variables", 10, |case| case.without_variables),
    ("in an ancilla argument", 8, |case| case.chooses && case.in_argument),
    ("in a scrutinee", 10, |case| case.chooses && case.in_scrutinee),
    ("in a branch", 20, |case| case.chooses && case.in_branch),
    ("with its variable in both branches", 10, |case| case.chooses && case.used_in_both),
    ("with its variable twice in a branch", 8, |case| case.chooses && case.used_twice),
    ("not: named in an ancilla argument alone", 5, |case| case.named_in_argument),
    ("not: a case in a scrutinee", 8, |case| !case.chooses && case.in_scrutinee),
    ("not: a case in an ancilla argument", 3, |case| !case.chooses && case.in_argument),
];

#[test]
fn programs_choose_in_each_way() {
    let mut met = [0; WAYS.len()];
    for trip in trips(44) {
        let found = cases(&checked(&trip.forward.program).program);
        for (count, (_, _, way)) in met.iter_mut().zip(WAYS) {
            *count += usize::from(found.iter().any(way));
        }
    }
    for (count, (name, share, _)) in met.iter().zip(WAYS) {
        assert!(count * 100 >= share * TRIPS, "{name}: {count} of {TRIPS}");
    }
}

/// The terms that a run enters, with choices or with first match for every case, and the one that it has no fuel for.
fn entered(call: &RunCall, choices: bool) -> Vec<(u16, bool)> {
    let mut checked = checked(&call.program);
    if !choices {
        checked.program.by_ancilla.fill(false);
    }
    let mut heap = Heap::default();
    let RunCall { direction, function, ancillae, value, fuel, .. } = call;
    let Ok((ancillae, value)) = arguments(&mut checked, *direction, *function, ancillae, value, &mut heap) else {
        return Vec::new();
    };
    let start = Start { program: &checked.program, function: *function, ancillae: &ancillae, value };
    let (_, seen) = watched(&start, *direction, fuel.saturating_add(1), &mut heap, u32::MAX);
    seen.iter().map(|Seen { entry, backward, .. }| (*entry, *backward)).collect()
}

/// Where a call is answered otherwise than under first match, the two runs part at a case that chooses by an ancilla: at its scrutinee,
/// which runs forward, or where first match refused its right branch's value.
fn parts_at_a_choice(call: &RunCall) -> bool {
    let (old, new) = (entered(call, false), entered(call, true));
    let common = old.iter().zip(&new).take_while(|(old, new)| old == new).count();
    let program = checked(&call.program).program;
    let chooses = |case: u16| program.by_ancilla[case as usize];
    let refused_there = matches!(under_first_match(call), Answer::Refused(refusal)
        if refusal.number == Number::FirstMatch && chooses(refusal.place as u16) && common == old.len());
    let of_choice = |term: u16| {
        let decides =
            |case: &u16| matches!(program.terms[*case as usize], Term::Case(scrutinee, ..) if scrutinee == term);
        (0..program.terms.len() as u16).find(decides).is_some_and(chooses)
    };
    refused_there || new.get(common).is_some_and(|(term, backward)| !backward && of_choice(*term))
}

#[test]
fn only_choices_are_answered_otherwise() {
    let mut otherwise = 0;
    for call in Maker::new(45).take(8_000) {
        let Call::Run(call) = call else { continue };
        let answer = answer(&Call::Run(RunCall { output: usize::MAX, ..call.clone() }));
        if answer != under_first_match(&call) {
            assert!(parts_at_a_choice(&call), "{call:?}");
            otherwise += 1;
        }
    }
    assert!(otherwise > 300, "only {otherwise} calls are answered otherwise");
}

#[test]
fn made_calls_choose_often() {
    const CALLS: usize = 10_000;
    let (mut with_choices, mut passed) = (0, 0);
    for call in Maker::new(46).take(CALLS) {
        let Some(Ok(checked)) = call.program().map(check) else { continue };
        with_choices += usize::from(checked.program.by_ancilla.contains(&true));
        passed += usize::from(matches!(&call, Call::Run(call) if passes_first_match(call)));
    }
    assert!(with_choices * 100 > CALLS * 15, "{with_choices} of {CALLS} programs have a choice");
    assert!(passed * 100 > CALLS, "{passed} of {CALLS} calls pass first match");
}

/// Conversions by choices stand in lists, and are rolled back.
#[test]
fn lists_convert_and_roll_back_by_choices() {
    let mut rng = Rng::new(47);
    let (mut converted, mut rolled_back) = (0, 0);
    let chooses =
        |program: &[u8]| Program::read(program).is_ok() && checked(program).program.by_ancilla.contains(&true);
    for _ in 0..300 {
        for turn in book_list(&mut rng) {
            let by_choice = turn.call.program().is_some_and(chooses);
            if let (true, Answer::Held { .. }) = (by_choice, &turn.answer) {
                match turn.call {
                    Call::Convert(_) => converted += 1,
                    _ => rolled_back += 1,
                }
            }
        }
    }
    assert!(converted > 150 && rolled_back > 60, "{converted} conversions, {rolled_back} rollbacks");
}
