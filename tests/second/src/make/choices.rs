//! Fuels, workspaces and lengths at, just below and above what a call needs.

use crate::calls::Answer;
use crate::limits::{self, FUEL};
use crate::refusal::Number;
use crate::rng::Rng;

/// A fuel near the steps that the call needs, which is asked with several fuels.
pub fn fuel(rng: &mut Rng, ask: impl Fn(u16) -> Answer) -> u16 {
    match ask(FUEL) {
        Answer::Value { steps, .. } | Answer::Held { steps, .. } => near_steps(rng, steps.min(FUEL as u32) as u16),
        Answer::Refused(refusal) if refusal.number == Number::Fuel => any_fuel(rng),
        _ if rng.chance(25) => {
            let needed = fuel_until_refused(ask);
            needed.saturating_sub(rng.below(2) as u16)
        }
        _ if rng.chance(50) => FUEL,
        _ => any_fuel(rng),
    }
}

fn near_steps(rng: &mut Rng, steps: u16) -> u16 {
    match rng.below(20) {
        0..=9 => steps,
        10..=12 => steps.saturating_sub(1),
        13 | 14 => steps.saturating_add(1),
        15..=17 => rng.below(steps as usize) as u16,
        18 => 0,
        _ => FUEL,
    }
}

fn any_fuel(rng: &mut Rng) -> u16 {
    match rng.below(6) {
        0 => 0,
        1 | 2 => rng.below(12) as u16,
        3 => rng.below(2500) as u16,
        4 => FUEL,
        _ => rng.below(FUEL as usize + 1) as u16,
    }
}

/// The least fuel with which a refusal other than 12 is met.
fn fuel_until_refused(ask: impl Fn(u16) -> Answer) -> u16 {
    let short = |fuel: u16| matches!(ask(fuel), Answer::Refused(refusal) if refusal.number == Number::Fuel);
    let (mut low, mut high) = (0u16, FUEL);
    while low < high {
        let middle = low + (high - low) / 2;
        if short(middle) {
            low = middle + 1;
        } else {
            high = middle;
        }
    }
    low
}

pub fn workspace(rng: &mut Rng, fuel: u16) -> usize {
    let needed = limits::workspace(fuel);
    match rng.below(60) {
        0 => needed - 1,
        1 => rng.below(needed),
        2..=9 => needed + rng.below(100),
        _ => needed,
    }
}

/// An output's or a buffer's length for bytes that take `needed`.
pub fn length(rng: &mut Rng, needed: usize) -> usize {
    match rng.below(20) {
        0 | 1 => needed.saturating_sub(1),
        2 => rng.below(needed + 1),
        3..=9 => needed,
        10 => needed + 1,
        _ => needed + rng.below(64),
    }
}
