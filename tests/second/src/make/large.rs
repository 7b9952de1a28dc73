//! Calls on programs over large types (02, F-4), sound ones and damaged ones.

use super::{choices, damage};
use crate::calls::{answer, Answer, Call, Direction, RunCall};
use crate::large::{End, Family, Large, LEAST_NODES, LEAST_TERMS};
use crate::limits::{self, FUEL, TERMS};
use crate::rng::Rng;

/// Some calls on one program: most often a check, and at times runs of its longest function.
pub fn large_calls(rng: &mut Rng) -> Vec<Call> {
    let large = random_large(rng);
    if rng.chance(15) {
        return trip(rng, &large);
    }
    let program = large.program().bytes;
    let program = if rng.chance(15) { damage::damaged(rng, &program) } else { program };
    vec![Call::Check { workspace: choices::workspace(rng, 0), program }]
}

/// Any family with any end. Most programs are small, since every answer is met by small ones as well; a few are at the limits.
pub fn random_large(rng: &mut Rng) -> Large {
    let family = *rng.pick(&Family::ALL);
    let end = if rng.chance(35) { End::Nothing } else { *rng.pick(&End::ALL) };
    let terms = size(rng, LEAST_TERMS, TERMS);
    let nodes = size(rng, LEAST_NODES, family.most_nodes());
    Large { family, terms, nodes, end }
}

fn size(rng: &mut Rng, least: usize, most: usize) -> usize {
    match rng.below(10) {
        0 => most,
        1 | 2 => rng.between(least, most),
        _ => rng.between(least, (2 * least).min(most)),
    }
}

/// A run and, if it yields a value, the way back from there; each with a fuel near what it needs.
fn trip(rng: &mut Rng, large: &Large) -> Vec<Call> {
    let forward = large.forward();
    let yielded = answer(&Call::Run(forward.clone()));
    let mut calls = vec![with_some_fuel(rng, &forward)];
    if let Answer::Value { value, .. } = yielded {
        calls.push(with_some_fuel(rng, &RunCall { direction: Direction::Backward, value, ..forward }));
    }
    calls.into_iter().map(Call::Run).collect()
}

fn with_some_fuel(rng: &mut Rng, call: &RunCall) -> RunCall {
    let ask = |fuel: u16| answer(&Call::Run(RunCall { fuel, workspace: limits::workspace(FUEL), ..call.clone() }));
    let fuel = choices::fuel(rng, ask);
    RunCall { fuel, workspace: choices::workspace(rng, fuel), ..call.clone() }
}
