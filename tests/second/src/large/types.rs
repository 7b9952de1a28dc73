//! Many type entries, named by terms and by parameters.

use super::ends::{self, Closed};
use super::Large;
use crate::assemble::Assembler;
use crate::limits::{FUNCTIONS, PARAMETERS, TYPES};

/// Nodes of the last type, if all entries are of so many writings.
pub fn most_nodes(writings: usize) -> usize {
    2 * (TYPES / writings) - 1
}

/// The fewest entries of a writing.
const LEAST: usize = 4;

/// Sums with unit, each over the one before it, in so many writings. Injections into all of them, each into another writing than the
/// one inside it, over and over; then functions whose parameters are of all these types.
pub fn types(large: &Large, a: &mut Assembler, writings: usize) {
    let room = large.terms - large.end.terms();
    let all = writings + usize::from(large.end.writes_again());
    let entries = large.nodes.div_ceil(2).min((TYPES - large.end.entries()) / all).clamp(LEAST, room);
    let both = large.writings();
    let written: Vec<Vec<u16>> = both[..writings].iter().map(|writing| sums(a, entries, writing.turned)).collect();
    let nests = (room / entries).min(FUNCTIONS / 2);
    let identities = (room - nests * entries).min(FUNCTIONS - nests - ends::FUNCTIONS);
    let last = (nests + identities) as u16;
    let whole = written[(entries - 1) % writings][entries - 1];
    let bodies: Vec<u16> = (0..nests).map(|_| nest(a, &written)).collect();
    let closed = Closed::around(large, a, last, (bodies[nests - 1], whole), |a, writing| {
        sums(a, entries, writing.turned)[entries - 1]
    });
    for &body in &bodies[..nests - 1] {
        a.function(whole, &[written[0][0]], body);
    }
    a.function(closed.result, &[written[0][0]], closed.term);
    for number in 0..identities {
        identity(a, &written, number);
    }
    closed.function(a);
}

/// Unit, and sums of unit and the entry before. Turned, the first of them is a product.
fn sums(a: &mut Assembler, entries: usize, turned: bool) -> Vec<u16> {
    let unit = a.unit_type();
    let mut written = vec![unit];
    for number in 1..entries {
        let below = written[number - 1];
        written.push(if turned && number == 1 { a.product(unit, below) } else { a.sum(unit, below) });
    }
    written
}

/// An injection into each sum, from the parameter.
fn nest(a: &mut Assembler, written: &[Vec<u16>]) -> u16 {
    let given = a.variable(0);
    (1..written[0].len()).fold(given, |term, number| a.inr(written[number % written.len()][number], term))
}

/// The last of as many parameters as there can be. Its type is the result's, in another writing if there is one.
fn identity(a: &mut Assembler, written: &[Vec<u16>], number: usize) {
    let entry = |which: usize, at: usize| written[which % written.len()][at % written[0].len()];
    let parameters: Vec<u16> = (0..PARAMETERS).map(|at| entry(at, number * PARAMETERS + at)).collect();
    let result = entry(PARAMETERS, number * PARAMETERS + PARAMETERS - 1);
    let body = a.variable(PARAMETERS as u8 - 1);
    a.function(result, &parameters, body);
}
