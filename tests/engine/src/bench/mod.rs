//! Times of both evaluators in one run, as rows of a table. Nothing is judged here.

mod calls;
pub mod checks;
mod compared;
pub mod measure;
mod steps;

pub fn bench() -> Result<(), String> {
    measure::print_head();
    steps::bench()?;
    compared::bench()?;
    calls::bench()?;
    checks::bench()
}
