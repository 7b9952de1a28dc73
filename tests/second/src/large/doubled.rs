//! The families of recursive types whose body doubles: products of its variable, or of a sum over it, doubled
//! again and again, beside a closed chain. Terms rebuild such a body by lets that double, too.

use super::chain::{Chain, Leaf, Writing};
use super::ends::Closed;
use super::families::{cells, first_function, nested_in};
use super::trees::{doubled, lets_that_double, sum_of_units};
use super::Large;
use crate::assemble::Assembler;

/// How often a body doubles, and the chain that fills it up to the nodes that there may be.
struct Body {
    doublings: u8,
    chain: Chain,
}

impl Body {
    /// As many doublings as the nodes allow beside the shortest chain. `nodes` tells how many a body may have that
    /// doubles so often, and how many of them are not the chain's.
    fn fitting(large: &Large, nodes: impl Fn(u8) -> (usize, usize)) -> Body {
        let left = |doublings| {
            let (most, others) = nodes(doublings);
            most.saturating_sub(others)
        };
        let least = Chain::least(Leaf::Closed);
        let doublings = (1..).take_while(|&doublings| left(doublings) >= least).last().unwrap_or_default();
        Body { doublings, chain: large.chain(left(doublings), Leaf::Closed) }
    }
}

/// A recursive type, 1 + chain × (its variable doubled), and its unfolding as an entry.
struct Doubled {
    recursive: u16,
    unfolded: u16,
}

impl Doubled {
    /// A body of m nodes, k of them its variable, unfolds to m (k + 1). The variable doubled has 2 k - 1 nodes;
    /// beside it and the chain there are the sum, its unit and the product.
    fn body(large: &Large) -> Body {
        Body::fitting(large, |doublings| {
            let variables = 1 << doublings;
            (large.nodes / (variables + 1), 2 * variables - 1 + 3)
        })
    }

    fn write(body: &Body, a: &mut Assembler, writing: Writing) -> Doubled {
        let chain = body.chain.write(a, writing).sum;
        let unit = a.unit_type();
        let over = |a: &mut Assembler, leaf| {
            let tree = doubled(a, body.doublings, leaf);
            let parts = a.product(chain, tree);
            a.sum(unit, parts)
        };
        let variable = a.bound(0);
        let sum = over(a, variable);
        let recursive = a.recursive(sum);
        Doubled { recursive, unfolded: over(a, recursive) }
    }
}

/// Each cell unrolls by the first writing and rolls by the second: unit as it is; a body taken apart, put together
/// and rolled, and the whole then doubled by lets into a body of its own, which is rolled again.
pub fn doubled_bodies(large: &Large, a: &mut Assembler) {
    let body = Doubled::body(large);
    let terms = 18 + 4 * body.doublings as usize;
    let [first, second] = large.writings().map(|writing| Doubled::write(&body, a, writing));
    let term = nested_in(a, cells(large, 1, terms), |a, _, term| {
        let unrolled = a.unroll(first.recursive, term);
        let unit = a.variable(1);
        let injected = a.inl(second.unfolded, unit);
        let left = a.roll(second.recursive, injected);
        let right = doubled_again(a, &second, body.doublings);
        a.case(unrolled, left, right)
    });
    let result = second.recursive;
    let closed = first_function(large, a, 1, (&[first.recursive], term, result), |a, writing| {
        Doubled::write(&body, a, writing).recursive
    });
    closed.function(a);
}

/// The case binds variable 1, the let pair 2 and 3, the let of the whole 4, and those that double it 5 and on.
fn doubled_again(a: &mut Assembler, ty: &Doubled, doublings: u8) -> u16 {
    let rolled = |a: &mut Assembler, tree| {
        let parts = [a.variable(2), a.variable(tree)];
        let together = a.pair(parts[0], parts[1]);
        let injected = a.inr(ty.unfolded, together);
        a.roll(ty.recursive, injected)
    };
    let given = a.variable(1);
    let whole = rolled(a, 3);
    let again = rolled(a, 4 + doublings);
    let inner = lets_that_double(a, doublings, (4, 5), again);
    let inner = a.let_one(whole, inner);
    a.let_pair(given, inner)
}

/// A recursive type, chain × (a sum doubled), with the sum 1 + its variable × its variable. Only the sum is an
/// entry in the unfolding, since injections name it; no entry names what is made of it.
struct Unspelled {
    recursive: u16,
    pair: u16,
    sum: u16,
    chain: u16,
}

impl Unspelled {
    /// A body of m nodes, k of them its variable, and the pair of the recursive type and its unfolding has m (k +
    /// 2) + 2. The sum has 5 nodes and 2 variables; beside it and the chain there is a product.
    fn body(large: &Large) -> Body {
        Body::fitting(large, |doublings| {
            let sums = 1 << doublings;
            ((large.nodes - 2) / (2 * sums + 2), 6 * sums)
        })
    }

    fn write(body: &Body, a: &mut Assembler, writing: Writing) -> Unspelled {
        let chain = body.chain.write(a, writing).sum;
        let unit = a.unit_type();
        let variable = a.bound(0);
        let variables = a.product(variable, variable);
        let open = a.sum(unit, variables);
        let tree = doubled(a, body.doublings, open);
        let parts = a.product(chain, tree);
        let recursive = a.recursive(parts);
        let pair = a.product(recursive, recursive);
        Unspelled { recursive, pair, sum: a.sum(unit, pair), chain }
    }
}

/// A value, and a body made of it by lets that double, in a pair; cells exchange the two, rolling the one by the
/// second writing and unrolling the other by the first, and every second one takes what it unrolls apart.
pub fn unspelled_bodies(large: &Large, a: &mut Assembler) {
    const CELLS: usize = 2;
    const TERMS: usize = 11 + 11 + 8;
    let body = Unspelled::body(large);
    let boolean = sum_of_units(a);
    let [first, second] = large.writings().map(|writing| Unspelled::write(&body, a, writing));
    // The ancilla and the value, the sum of it, and that doubled.
    let in_scope = 3 + body.doublings;
    let others = 16 + 4 * body.doublings as usize;
    let number = (CELLS * cells(large, others, TERMS)).max(1);
    let whole = value_and_body(a, &first, in_scope);
    let term = (0..number).fold(whole, |term, number| {
        let [left, right] = exchanged(a, [&first, &second], in_scope, number % CELLS == 1);
        let ancilla = a.variable(0);
        let chosen = a.case(ancilla, left, right);
        a.let_pair(term, chosen)
    });
    let term = both_rolled(a, &second, in_scope, term);
    let closed =
        Closed::around(large, a, 1, (term, second.pair), |a, writing| Unspelled::write(&body, a, writing).pair);
    let inner = lets_that_double(a, body.doublings, (2, 3), closed.term);
    let bound = sum_of_value(a, &first);
    let inner = a.let_one(bound, inner);
    a.function(closed.result, &[boolean, first.recursive], inner);
    closed.function(a);
}

/// The value beside itself, injected.
fn sum_of_value(a: &mut Assembler, ty: &Unspelled) -> u16 {
    let parts = [a.variable(1), a.variable(1)];
    let together = a.pair(parts[0], parts[1]);
    a.inr(ty.sum, together)
}

/// The value, and a body of the shortest value of the chain and what the lets have bound last.
fn value_and_body(a: &mut Assembler, ty: &Unspelled, in_scope: u8) -> u16 {
    let value = a.variable(1);
    let unit = a.unit();
    let chain = a.inl(ty.chain, unit);
    let tree = a.variable(in_scope - 1);
    let body = a.pair(chain, tree);
    a.pair(value, body)
}

/// The branches of an exchange: value and body as they are; the body rolled, and the value unrolled, which is
/// taken apart on request, and so is the tree in it.
fn exchanged(a: &mut Assembler, [first, second]: [&Unspelled; 2], in_scope: u8, apart: bool) -> [u16; 2] {
    let [value, body] = [0, 1].map(|part| a.variable(in_scope + part));
    let left = a.pair(value, body);
    let [value, body] = [0, 1].map(|part| a.variable(in_scope + part));
    let rolled = a.roll(second.recursive, body);
    let unrolled = a.unroll(first.recursive, value);
    // The case binds one more variable.
    let unrolled = if apart { taken_apart(a, unrolled, in_scope + 3) } else { unrolled };
    [left, a.pair(rolled, unrolled)]
}

/// A body taken apart into the chain and the halves of the tree, and put together again.
fn taken_apart(a: &mut Assembler, body: u16, in_scope: u8) -> u16 {
    let [chain, tree, first, second] = [0, 1, 2, 3].map(|part| a.variable(in_scope + part));
    let halves = a.pair(first, second);
    let together = a.pair(chain, halves);
    let inner = a.let_pair(tree, together);
    a.let_pair(body, inner)
}

/// The value and the body, rolled as well, so that the result is an entry's.
fn both_rolled(a: &mut Assembler, ty: &Unspelled, in_scope: u8, term: u16) -> u16 {
    let [value, body] = [0, 1].map(|part| a.variable(in_scope + part));
    let rolled = a.roll(ty.recursive, body);
    let together = a.pair(value, rolled);
    a.let_pair(term, together)
}

/// The shortest value of the recursive type: the chain's, and units on the left of all sums.
pub fn unspelled_value(large: &Large) -> Vec<u8> {
    let doublings = Unspelled::body(large).doublings;
    let tree = (0..doublings).fold(vec![1, 0], |half, _| [&[3], &half[..], &half[..]].concat());
    [&[4, 3, 1, 0], &tree[..]].concat()
}
