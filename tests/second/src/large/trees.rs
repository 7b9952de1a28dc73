//! The families of trees of pairs: terms make them, doubling a part by lets, and cases that choose by an ancilla
//! exchange two of them, (v, w) and (w, v). Entries name them only where a call or a result needs that.

use super::chain::{Leaf, Writing};
use super::ends::Closed;
use super::families::cells;
use super::Large;
use crate::assemble::Assembler;

/// Variables before the lets: the ancilla by which cases choose, and the part that each of the two trees is made
/// of.
const PARTS: u8 = 3;

/// Terms of two lets that double, one for each tree.
const DOUBLING: usize = 8;

/// Terms of the pair of two variables.
const PAIR: usize = 3;

/// Terms that take a pair apart and put it together, beside the pair.
const EXCHANGE: usize = 9;

/// How often a part of the pairs is doubled: a part of c nodes makes pairs of 16 (c + 1) - 1.
const DOUBLINGS: u8 = 3;

/// Two parts of equal types are doubled by lets, and then exchanged. Function 1 takes such pairs by an entry;
/// function 2 gives the second writing of the part's type for the first.
pub fn pairs(large: &Large, a: &mut Assembler) {
    const CALL: usize = 1;
    let chain = large.chain((large.nodes / (2 << DOUBLINGS)).saturating_sub(1), Leaf::Closed);
    let boolean = sum_of_units(a);
    let parts = large.writings().map(|writing| chain.write(a, writing).sum);
    let halves = parts.map(|part| doubled(a, DOUBLINGS, part));
    let [taken, given] = [a.product(halves[0], halves[0]), a.product(halves[0], halves[1])];
    let mut term = both_halves(a, DOUBLINGS);
    let others = 5 + PAIR + DOUBLING * DOUBLINGS as usize;
    for _ in 0..cells(large, others, EXCHANGE + CALL) {
        let exchanged = exchanged(a, DOUBLINGS, term);
        term = a.call(1, &[exchanged]);
    }
    let closed = Closed::around(large, a, 3, (term, given), |a, writing| {
        let part = chain.write(a, writing).sum;
        doubled(a, DOUBLINGS + 1, part)
    });
    let inner = doubled_by_lets(a, DOUBLINGS, closed.term);
    let part = a.variable(1);
    let again = a.call(2, &[part]);
    let body = a.let_one(again, inner);
    a.function(closed.result, &[boolean, parts[0]], body);
    for (result, parameter) in [(given, taken), (parts[1], parts[0])] {
        let handed_on = a.variable(0);
        a.function(result, &[parameter], handed_on);
    }
    closed.function(a);
}

/// Trees as deep as the nodes allow, over a sum of units, exchanged with no call between: only the function's
/// result names them. The part of the first tree is an ancilla, so that the two can be of two writings without a
/// call.
pub fn exchanged_trees(large: &Large, a: &mut Assembler) {
    let boolean = sum_of_units(a);
    let doublings = doublings_of_exchanged(large);
    let parts = large.writings().map(|writing| small(a, writing));
    let halves = parts.map(|part| doubled(a, doublings, part));
    let given = a.product(halves[0], halves[1]);
    let others = PAIR + DOUBLING * doublings as usize;
    let term = exchanged_often(a, doublings, cells(large, others, EXCHANGE));
    let closed = Closed::around(large, a, 1, (term, given), |a, writing| {
        let part = small(a, writing);
        doubled(a, doublings + 1, part)
    });
    let body = doubled_by_lets(a, doublings, closed.term);
    a.function(closed.result, &[boolean, parts[0], parts[1]], body);
    closed.function(a);
}

/// A part of three nodes makes pairs of 2^(k + 3) - 1, if it is doubled k times; one exchange has to fit beside.
fn doublings_of_exchanged(large: &Large) -> u8 {
    let by_nodes = (large.nodes + 1).ilog2() as usize - 3;
    let by_terms = large.terms.saturating_sub(large.end.terms() + PAIR + EXCHANGE) / DOUBLING;
    by_nodes.min(by_terms) as u8
}

/// A sum of units. Turned, it is their product.
fn small(a: &mut Assembler, Writing { turned, renumbered, .. }: Writing) -> u16 {
    if renumbered {
        a.bound(3);
    }
    let unit = a.unit_type();
    if turned {
        a.product(unit, unit)
    } else {
        a.sum(unit, unit)
    }
}

/// How often entries double unit for the parts of trees that no entry names: 15 nodes.
const NAMED: u8 = 3;

/// Trees over parts that have one value, exchanged, then taken apart by let pairs down to those parts, which
/// functions 1 to `NAMED` take apart down to units. What is left is unit, so that no entry names a tree, unless
/// the end does.
pub fn unnamed_trees(large: &Large, a: &mut Assembler) {
    let boolean = sum_of_units(a);
    let doublings = doublings_of_unnamed(large);
    let written = large.writings().map(|writing| in_steps(a, writing));
    let parts = [0, 1].map(|which: usize| written[which][NAMED as usize]);
    let others = PAIR + DOUBLING * doublings as usize + using_up(doublings + 1) + USING_UP_PARTS;
    let term = exchanged_often(a, doublings, cells(large, others, EXCHANGE));
    let unit = written[0][0];
    let closed = Closed::around(large, a, 1 + NAMED as u16, (term, unit), |a, writing| {
        let part = in_steps(a, writing)[NAMED as usize];
        doubled(a, doublings + 1, part)
    });
    let inner = used_up(a, 1, doublings + 1, closed.term, PARTS + 2 * doublings);
    let body = doubled_by_lets(a, doublings, inner);
    a.function(unit, &[boolean, parts[0], parts[1]], body);
    parts_used_up(a, &written[0]);
    closed.function(a);
}

/// A part of 15 nodes makes pairs of 2^(k + 5) - 1, if it is doubled k times. Using them up takes a third of the
/// terms.
fn doublings_of_unnamed(large: &Large) -> u8 {
    let by_nodes = (large.nodes + 1).ilog2() as u8 - 2 - NAMED;
    let share = large.terms.saturating_sub(large.end.terms()) / 3;
    (0..by_nodes).take_while(|&fewer| using_up(fewer + 2) <= share).count() as u8
}

/// Unit, and pairs of the entry before. Turned, the first of them is a sum.
fn in_steps(a: &mut Assembler, Writing { turned, renumbered, .. }: Writing) -> Vec<u16> {
    let first = small(a, Writing { turned: !turned, renumbered, ..Writing::default() });
    let mut steps = vec![a.unit_type(), first];
    for step in 1..NAMED as usize {
        steps.push(a.product(steps[step], steps[step]));
    }
    steps
}

/// Terms that use up a tree of so many doublings: a call and its variable for each part, three more for each pair.
fn using_up(doublings: u8) -> usize {
    (5 << doublings) - 3
}

/// Terms of the functions that take the parts: three for the last, seven for each other.
const USING_UP_PARTS: usize = 7 * NAMED as usize - 4;

/// A tree taken apart, first its left half and then its right one, and each part given to a function whose value
/// is unit: `let (v, w) = tree in let u = (v used up) in (w used up)`.
fn used_up(a: &mut Assembler, function: u16, doublings: u8, tree: u16, in_scope: u8) -> u16 {
    if doublings == 0 {
        return a.call(function, &[tree]);
    }
    let halves = [in_scope, in_scope + 1].map(|half| a.variable(half));
    let first = used_up(a, function, doublings - 1, halves[0], in_scope + 2);
    let second = used_up(a, function, doublings - 1, halves[1], in_scope + 3);
    let both = a.let_one(first, second);
    a.let_pair(tree, both)
}

/// Function 1 takes the last of the steps, and gives both its halves to function 2; so on, down to units, which
/// need no use.
fn parts_used_up(a: &mut Assembler, steps: &[u16]) {
    for number in 1..=NAMED as u16 {
        let part = a.variable(0);
        let body = if number == NAMED as u16 {
            let unit = a.unit();
            a.let_pair(part, unit)
        } else {
            used_up(a, number + 1, 1, part, 1)
        };
        a.function(steps[0], &[steps[(NAMED as u16 + 1 - number) as usize]], body);
    }
}

/// The value of a part of unnamed trees.
pub fn one_value() -> Vec<u8> {
    (0..NAMED).fold(vec![0], |half, _| [&[3], &half[..], &half[..]].concat())
}

pub fn sum_of_units(a: &mut Assembler) -> u16 {
    let unit = a.unit_type();
    a.sum(unit, unit)
}

/// The entry of a type doubled so often.
pub fn doubled(a: &mut Assembler, doublings: u8, part: u16) -> u16 {
    (0..doublings).fold(part, |ty, _| a.product(ty, ty))
}

/// Lets that bind each of variables 1 and 2 doubled, and doubled again, around a term.
fn doubled_by_lets(a: &mut Assembler, doublings: u8, inner: u16) -> u16 {
    let second = lets_that_double(a, doublings, (2, PARTS + doublings), inner);
    lets_that_double(a, doublings, (1, PARTS), second)
}

/// Lets that bind a variable doubled, and doubled again, by numbers from `first` on, around a term.
pub fn lets_that_double(a: &mut Assembler, doublings: u8, (part, first): (u8, u8), inner: u16) -> u16 {
    (0..doublings).rev().fold(inner, |body, number| {
        let below = if number == 0 { part } else { first + number - 1 };
        let halves = [a.variable(below), a.variable(below)];
        let bound = a.pair(halves[0], halves[1]);
        a.let_one(bound, body)
    })
}

/// The pair of what the lets have bound last, or of the parts where nothing is doubled.
fn both_halves(a: &mut Assembler, doublings: u8) -> u16 {
    let bound = [1, 2].map(|part| if doublings == 0 { part } else { PARTS - 1 + part * doublings });
    let halves = bound.map(|half| a.variable(half));
    a.pair(halves[0], halves[1])
}

/// The pair of both, exchanged so often.
fn exchanged_often(a: &mut Assembler, doublings: u8, cells: usize) -> u16 {
    let whole = both_halves(a, doublings);
    (0..cells).fold(whole, |term, _| exchanged(a, doublings, term))
}

/// A pair taken apart, and put together in one order or the other.
fn exchanged(a: &mut Assembler, doublings: u8, term: u16) -> u16 {
    let in_scope = PARTS + 2 * doublings;
    let [left, right] = [[0, 1], [1, 0]].map(|order| {
        let halves = order.map(|half| a.variable(in_scope + half));
        a.pair(halves[0], halves[1])
    });
    let ancilla = a.variable(0);
    let chosen = a.case(ancilla, left, right);
    a.let_pair(term, chosen)
}
