//! Checks: ordinary programs, each family of programs over large types at its largest, and how the time grows with terms and nodes.

use super::measure::*;
use corefun::foreign;
use second::bench::{largest_program, many_functions};
use second::calls::Call;
use second::large::{Family, Large};
use second::limits::{workspace, TERMS};
use std::hint::black_box;

const MICROSECOND: f64 = 1000.0;

/// The families of which the growth is told.
const GROWING: [Family; 10] = [
    Family::Unrolls,
    Family::Calls,
    Family::Rolls,
    Family::Spelled,
    Family::Pairs,
    Family::Exchanged,
    Family::Unnamed,
    Family::Doubled,
    Family::Unspelled,
    Family::Shared,
];

/// Parts of the terms and of the nodes.
const PARTS: [usize; 4] = [8, 4, 2, 1];

pub fn bench() -> Result<(), String> {
    for (name, program, terms) in ordinary() {
        let [engine, second] = times(&program)?.map(|time| time / terms as f64);
        print_row(&name, "ns a term", engine, second, "");
    }
    for family in Family::ALL {
        let large = Large::largest(family);
        let name = format!("check, {}", family.name());
        print_large(&name, &large)?;
    }
    GROWING.into_iter().try_for_each(bench_growth)
}

/// Programs of about 1,000 terms over small types.
pub fn ordinary() -> [(String, Vec<u8>, usize); 2] {
    let (lists, terms) = largest_program();
    let (small, small_terms) = many_functions();
    [
        (format!("check of {terms} terms"), lists, terms),
        (format!("check of {small_terms} terms, many small functions"), small, small_terms),
    ]
}

fn bench_growth(family: Family) -> Result<(), String> {
    let whole = Large::largest(family);
    for part in PARTS {
        let large = Large { terms: TERMS / part, ..whole };
        print_large(&format!("{}, 1/{part} of the terms", family.name()), &large)?;
    }
    for part in PARTS {
        let large = Large { nodes: whole.nodes / part, ..whole };
        print_large(&format!("{}, 1/{part} of the nodes", family.name()), &large)?;
    }
    Ok(())
}

fn print_large(name: &str, large: &Large) -> Result<(), String> {
    let program = large.program();
    let [engine, second] = times(&program.bytes)?.map(|time| time / MICROSECOND);
    let remark = format!("{} terms, {} types, up to {} nodes", program.terms, program.types, large.nodes);
    print_row(name, "us a call", engine, second, &remark);
    Ok(())
}

/// Nanoseconds of a check, by the engine and by the second evaluator.
pub fn times(program: &[u8]) -> Result<[f64; 2], String> {
    let call = Call::Check { workspace: workspace(0), program: program.to_vec() };
    agree(&call)?;
    let mut space = vec![0; workspace(0)];
    let mut engine = || {
        black_box(foreign::check(black_box(program), &mut space));
    };
    Ok(medians([&mut engine, &mut by_second(call)]))
}
