//! Programs in which a dynamic variable steers calls in a let's bound term (02, F-2), run there and back by both evaluators.

use crate::compare::{shared_out, Tally};
use crate::trips::compare_trip;
use second::make::steer::steered_trip;
use second::rng::Rng;
use std::sync::atomic::{AtomicUsize, Ordering};

/// So many in a hundred programs must run both ways, or the run says too little.
const LEAST: usize = 80;

/// Every call is compared; of the programs, those are counted that the engine itself runs forward and back to the same record.
pub fn compare_steered(seed: u64, count: usize) -> Result<Tally, String> {
    let both_ways = AtomicUsize::new(0);
    let tally = shared_out(seed, count, |seed, count, tally| {
        let mut rng = Rng::new(seed);
        for _ in 0..count {
            if compare_trip(&steered_trip(&mut rng), tally, |_| {}) {
                both_ways.fetch_add(1, Ordering::Relaxed);
            }
        }
    });
    let both_ways = both_ways.into_inner();
    println!("{both_ways} of {count} programs with steering ran both ways");
    if both_ways * 100 < count * LEAST && tally.different == 0 {
        return Err(format!("fewer than {LEAST} in a hundred programs ran both ways"));
    }
    Ok(tally)
}
