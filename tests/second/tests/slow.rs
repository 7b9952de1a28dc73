//! What must hold of the calls that are made to be slow.

mod common;

use common::{check, refused, value, Runs};
use second::calls::{answer, Answer, Call, Direction};
use second::draft::Draft;
use second::limits::{workspace, FUEL};
use second::refusal::Number;
use second::rng::Rng;
use second::slow::chain::{Chain, Layer};
use second::slow::collide::{colliding, Fingerprint};
use second::slow::leaves::Leaves;
use second::slow::{equal_first, kept, last_bit, slow_calls, Slow, LEAVES, PAIRED_LEAVES};

/// So small that the whole test takes a second.
const WORK: usize = 300_000;

/// Each call reaches its run: no row before it refuses.
#[test]
fn slow_calls_run() {
    let mut refused_by_fuel = 0;
    for slow in slow_calls(1).take(400) {
        let answer = answer(&Call::Run(slow.call(slow.fuel(WORK))));
        match answer {
            Answer::Value { .. } => {}
            Answer::Refused(refusal) if refusal.number as u8 >= Number::Fuel as u8 => {
                refused_by_fuel += usize::from(refusal.number == Number::Fuel);
            }
            other => panic!("{other:?}: {slow:?}"),
        }
    }
    assert!(refused_by_fuel > 100, "only {refused_by_fuel} calls spend their fuel");
}

#[test]
fn a_seed_names_its_calls() {
    let made = |seed| slow_calls(seed).take(50).collect::<Vec<Slow>>();
    assert_eq!(made(7), made(7));
    assert_ne!(made(7), made(8));
    assert_eq!(made(7)[..kept().len()], kept());
}

/// The two families of the slowest calls have the most leaves that their programs allow, and values near the limit.
#[test]
fn the_most_leaves() {
    let program = |leaves: Leaves| leaves.call(FUEL).program;
    for (leaves, more) in
        [(last_bit(LEAVES), last_bit(LEAVES + 25)), (equal_first(PAIRED_LEAVES), equal_first(PAIRED_LEAVES + 25))]
    {
        assert!(leaves.value_bytes().len() > 1000);
        assert_eq!(check(&program(leaves)), Answer::Accepted);
        assert!(matches!(check(&program(more)), Answer::Refused(refusal) if refusal.number == Number::Count));
    }
}

/// With few leaves the slowest calls are cheap: they spend all fuel that there is.
#[test]
fn leaves_spend_all_fuel() {
    for leaves in [last_bit(1), equal_first(1)] {
        for direction in [Direction::Forward, Direction::Backward] {
            let call = Leaves { direction, ..leaves.clone() }.call(FUEL);
            assert_eq!(call.workspace, workspace(FUEL));
            let Answer::Refused(refusal) = answer(&Call::Run(call)) else { panic!("fuel is left") };
            assert_eq!(refusal.number, Number::Fuel);
        }
    }
}

/// A chain of every layer, copied node by node, is what it was, either way; with a step too few it is refused.
#[test]
fn chains_are_copied() {
    let layers = vec![Layer::Left, Layer::Roll, Layer::Inr, Layer::Right, Layer::Inl, Layer::Roll, Layer::Left];
    let chain = Chain { layers, bits: 3 };
    let program = Draft { functions: vec![chain.copying(0)] }.bytes();
    let given = chain.bytes(20, 5);
    let Answer::Value { steps, .. } = Runs::of(&program).forward(0, &[], &given) else { panic!("copied") };
    assert_eq!(Runs::of(&program).forward(0, &[], &given), value(&given, steps));
    assert_eq!(Runs::of(&program).backward(0, &[], &given), value(&given, steps));
    let short = Runs::with_fuel(&program, steps as u16 - 1).forward(0, &[], &given);
    assert!(matches!(short, Answer::Refused(refusal) if refusal.number == Number::Fuel));
    assert_eq!(Runs::of(&program).forward(0, &[], &given[1..]), refused(Number::ValueType, 0));
}

#[test]
fn chains_have_as_many_turns_as_fit() {
    let chain = Chain { layers: vec![Layer::Left, Layer::Right], bits: 2 };
    let turns = chain.turns_within(1000);
    assert!(chain.bytes(turns, 0).len() <= 1000 && chain.bytes(turns + 1, 0).len() > 1000);
}

/// Tails of 32 bits collide by a fingerprint of 16, and so do the chains that end in them; none collide by one that tells all apart.
#[test]
fn colliding_tails_are_found() {
    let fingerprint: Fingerprint =
        |bytes| bytes.iter().fold(7, |sum, &byte| (sum * 31 + u64::from(byte)) % 65_521);
    let wide = Chain { layers: Vec::new(), bits: 32 };
    let [a, b] = colliding(&mut Rng::new(3), &wide, fingerprint).expect("two that collide");
    assert_ne!(a, b);
    assert_eq!(fingerprint(&wide.tail_bytes(a)), fingerprint(&wide.tail_bytes(b)));
    assert_eq!(fingerprint(&wide.bytes(90, a)), fingerprint(&wide.bytes(90, b)));
    let exact: Fingerprint = |bytes| bytes.iter().fold(0, |all, &byte| all * 3 + u64::from(byte));
    assert_eq!(colliding(&mut Rng::new(3), &Chain { layers: Vec::new(), bits: 1 }, exact), None);
}
