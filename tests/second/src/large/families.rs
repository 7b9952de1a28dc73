//! The families whose types are chains. In each of them function 0 has the most terms: a term that is made of cells, each around the
//! one before it, so that the cell that stands deepest is typed first.

use super::chain::{Chain, Leaf, Writing, Written};
use super::ends::Closed;
use super::Large;
use crate::assemble::Assembler;

/// The parameter of function 0 in so many cells.
pub fn nested_in(a: &mut Assembler, cells: usize, cell: impl Fn(&mut Assembler, usize, u16) -> u16) -> u16 {
    let given = a.variable(0);
    (0..cells).fold(given, |term, number| cell(a, number, term))
}

/// As many cells as fit beside some other terms and an end.
pub fn cells(large: &Large, others: usize, terms: usize) -> usize {
    large.terms.saturating_sub(others + large.end.terms()) / terms
}

/// Function 0 with its end around its term, and the type that it is to have.
pub fn first_function(
    large: &Large,
    a: &mut Assembler,
    number: u16,
    (parameters, body, result): (&[u16], u16, u16),
    write: impl FnOnce(&mut Assembler, Writing) -> u16,
) -> Closed {
    let closed = Closed::around(large, a, number, (body, result), write);
    a.function(closed.result, parameters, closed.term);
    closed
}

/// A recursive type over m nodes, three of them its variable, unfolds to 4 m.
pub fn unrolls(large: &Large, a: &mut Assembler) {
    let chain = large.chain(large.nodes / 4, Leaf::Variables(3));
    let recursive = chain.recursive(a, Writing::default());
    let body = nested_in(a, cells(large, 1, 2), |a, _, term| {
        let unrolled = a.unroll(recursive, term);
        a.roll(recursive, unrolled)
    });
    let closed =
        first_function(large, a, 1, (&[recursive], body, recursive), |a, writing| chain.recursive(a, writing));
    closed.function(a);
}

/// Function 1 takes the first writing and gives the second.
pub fn calls(large: &Large, a: &mut Assembler) {
    let chain = large.chain(large.nodes, Leaf::Closed);
    let [taken, given] = large.writings().map(|writing| chain.write(a, writing).sum);
    let body = nested_in(a, cells(large, 2, 1), |a, _, term| a.call(1, &[term]));
    let closed = first_function(large, a, 2, (&[taken], body, given), |a, writing| chain.write(a, writing).sum);
    let handed_on = a.variable(0);
    a.function(given, &[taken], handed_on);
    closed.function(a);
}

/// A recursive type over m nodes, one of them its variable, unfolds to 2 m. Each unroll is by the first writing, each roll by the
/// second.
pub fn rolls(large: &Large, a: &mut Assembler) {
    let chain = large.chain(large.nodes / 2, Leaf::Skipping);
    let [first, second] = large.writings().map(|writing| chain.recursive(a, writing));
    let body = nested_in(a, cells(large, 1, 2), |a, _, term| {
        let unrolled = a.unroll(first, term);
        a.roll(second, unrolled)
    });
    let closed = first_function(large, a, 1, (&[first], body, second), |a, writing| chain.recursive(a, writing));
    closed.function(a);
}

/// A recursive type, and its unfolding as an entry of its own.
struct Opened {
    recursive: u16,
    unfolded: Written,
}

impl Opened {
    fn write(chain: &Chain, a: &mut Assembler, [first, second]: [Writing; 2]) -> Opened {
        let recursive = chain.recursive(a, first);
        let unfolded = chain.write(a, Writing { own: Some(recursive), ..second });
        Opened { recursive, unfolded }
    }
}

/// Function 1 takes the unfolding, function 2 its right part, and both give the recursive type. Most cells give an unrolled term to
/// function 1; every third one takes it apart and gives the part to function 2.
pub fn spelled(large: &Large, a: &mut Assembler) {
    const CELLS: usize = 3;
    const TERMS: usize = 2 + 2 + 7;
    let chain = large.chain(large.nodes / 2, Leaf::Variables(1));
    let opened = Opened::write(&chain, a, large.writings());
    let Opened { recursive, unfolded } = opened;
    let body = nested_in(a, CELLS * cells(large, 6, TERMS), |a, number, term| {
        let unrolled = a.unroll(recursive, term);
        if number % CELLS == 0 {
            taken_apart(a, &opened, unrolled)
        } else {
            a.call(1, &[unrolled])
        }
    });
    let closed =
        first_function(large, a, 3, (&[recursive], body, recursive), |a, writing| chain.recursive(a, writing));
    let given = a.variable(0);
    let rolled = a.roll(recursive, given);
    a.function(recursive, &[unfolded.sum], rolled);
    let part = a.variable(0);
    let injected = a.inr(unfolded.sum, part);
    let rolled = a.roll(recursive, injected);
    a.function(recursive, &[unfolded.right], rolled);
    closed.function(a);
}

/// Unit is injected and rolled again; the right part goes to function 2.
fn taken_apart(a: &mut Assembler, opened: &Opened, unrolled: u16) -> u16 {
    let unit = a.variable(1);
    let injected = a.inl(opened.unfolded.sum, unit);
    let left = a.roll(opened.recursive, injected);
    let part = a.variable(1);
    let right = a.call(2, &[part]);
    a.case(unrolled, left, right)
}

/// A recursive type with another inside, in which the variables of both stand: the inner one as it is in the unfolding of the outer
/// one, and that unfolding as an entry.
struct Levels {
    outer: u16,
    inner: u16,
    unfolded: u16,
}

impl Levels {
    fn write(chain: &Chain, a: &mut Assembler, writing: Writing) -> Levels {
        let outer = Levels::outer(chain, a, writing);
        let inner = chain.recursive(a, Writing { own: Some(outer), ..writing });
        let unit = a.unit_type();
        let parts = a.product(outer, inner);
        Levels { outer, inner, unfolded: a.sum(unit, parts) }
    }

    fn outer(chain: &Chain, a: &mut Assembler, writing: Writing) -> u16 {
        let inner = chain.recursive(a, writing);
        let [unit, variable] = [a.unit_type(), a.bound(0)];
        let parts = a.product(variable, inner);
        let sum = a.sum(unit, parts);
        a.recursive(sum)
    }
}

/// Over m nodes of the inner type's body the outer one has m + 6, the inner one as it is in the unfolding 2 m + 6, and its own
/// unfolding 4 m + 10. The cells unroll by one writing and roll by the other; function 1 does so at the inner level.
pub fn nested(large: &Large, a: &mut Assembler) {
    const CELL: usize = 13;
    let chain = large.chain(large.nodes.saturating_sub(10) / 4, Leaf::Both);
    let [first, second] = large.writings().map(|writing| Levels::write(&chain, a, writing));
    let body = nested_in(a, cells(large, 4, CELL), |a, _, term| {
        let unrolled = a.unroll(first.outer, term);
        rolled_again(a, &second, unrolled)
    });
    let result = if cells(large, 4, CELL) == 0 { first.outer } else { second.outer };
    let closed = first_function(large, a, 2, (&[first.outer], body, result), |a, writing| {
        Levels::outer(&chain, a, writing)
    });
    let given = a.variable(0);
    let unrolled = a.unroll(first.inner, given);
    let rolled = a.roll(second.inner, unrolled);
    a.function(second.inner, &[first.inner], rolled);
    closed.function(a);
}

/// Unit, or the outer value and the inner one, which goes through function 1, rolled by this writing.
fn rolled_again(a: &mut Assembler, levels: &Levels, unrolled: u16) -> u16 {
    let unit = a.variable(1);
    let injected = a.inl(levels.unfolded, unit);
    let left = a.roll(levels.outer, injected);
    let [parts, outer, inner] = [1, 2, 3].map(|number| a.variable(number));
    let through = a.call(1, &[inner]);
    let together = a.pair(outer, through);
    let injected = a.inr(levels.unfolded, together);
    let rolled = a.roll(levels.outer, injected);
    let right = a.let_pair(parts, rolled);
    a.case(unrolled, left, right)
}

/// How often an unfolding is taken apart by let pairs, and put together again by pairs.
pub const LEVELS: usize = 10;

/// Nodes that a level adds: a product, and a sum of units.
const LEVEL_NODES: usize = 4;

/// Recursive types over pairs in pairs, a chain in the last one. Each cell unrolls by the first writing, takes all pairs apart, gives
/// the rest to function 1, which takes it by an entry, pairs all parts again and rolls by the second writing.
pub fn rebuilt(large: &Large, a: &mut Assembler) {
    const CELL: usize = 4 * LEVELS + 3;
    let nodes = (large.nodes / 2).saturating_sub(LEVELS * LEVEL_NODES);
    let chain = large.chain(nodes, Leaf::Variables(1));
    let [first, second] = large.writings().map(|writing| in_levels(&chain, a, writing));
    let rest = chain.write(a, Writing { own: Some(first), ..Writing::default() }).sum;
    let body = nested_in(a, cells(large, 2, CELL), |a, _, term| {
        let unrolled = a.unroll(first, term);
        let paired = paired_again(a);
        let rolled = a.roll(second, paired);
        taken_apart_in_levels(a, unrolled, rolled)
    });
    let closed = first_function(large, a, 2, (&[first], body, second), |a, writing| in_levels(&chain, a, writing));
    let given = a.variable(0);
    a.function(rest, &[rest], given);
    closed.function(a);
}

fn in_levels(chain: &Chain, a: &mut Assembler, writing: Writing) -> u16 {
    let Written { sum, .. } = chain.write(a, writing);
    let unit = a.unit_type();
    let boolean = a.sum(unit, unit);
    let body = (0..LEVELS).fold(sum, |below, _| a.product(boolean, below));
    a.recursive(body)
}

/// Level k binds variables 2 k + 1, which is its first part, and 2 k + 2, which is all that is below it.
fn paired_again(a: &mut Assembler) -> u16 {
    let rest = a.variable(2 * LEVELS as u8);
    let handed_on = a.call(1, &[rest]);
    (0..LEVELS as u8).rev().fold(handed_on, |below, level| {
        let part = a.variable(2 * level + 1);
        a.pair(part, below)
    })
}

fn taken_apart_in_levels(a: &mut Assembler, unrolled: u16, inner: u16) -> u16 {
    let inside = (1..LEVELS as u8).rev().fold(inner, |body, level| {
        let bound = a.variable(2 * level);
        a.let_pair(bound, body)
    });
    a.let_pair(unrolled, inside)
}
