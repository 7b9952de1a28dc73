//! Recursive types that share open entries: the same chain, in which the variable stands, under other outermost
//! layers. What the variable stands for is another type in each of them.

use super::chain::{Chain, Leaf, Writing};
use super::ends::Closed;
use super::families::cells;
use super::Large;
use crate::assemble::Assembler;

/// Recursive types that share a chain.
pub const SHARERS: usize = 8;

/// Nodes of the outermost layer: a product, and the type in it that tells the recursive types apart, at most.
const OUTERMOST: usize = 1 + 3 + 2 * (SHARERS - 1);

/// A recursive type, telling × chain. In its unfolding only the chain is an entry, since injections name it: the
/// product around it has none, so that an unfolding is never told by an entry of its own.
struct Sharing {
    recursive: u16,
    telling: u16,
    chain: u16,
}

impl Sharing {
    /// All of them, each with the chain of its unfolding by the second writing.
    fn write(chain: &Chain, a: &mut Assembler, [first, second]: [Writing; 2]) -> Vec<Sharing> {
        let sides = chain.sides(a);
        let open = chain.write_beside(a, &sides, first).sum;
        let unit = a.unit_type();
        let mut below = unit;
        let mut all = Vec::new();
        for _ in 0..SHARERS {
            let telling = a.sum(unit, below);
            let parts = a.product(telling, open);
            let recursive = a.recursive(parts);
            let writing = Writing { own: Some(recursive), ..second };
            let chain = chain.write_beside(a, &sides, writing).sum;
            all.push(Sharing { recursive, telling, chain });
            below = telling;
        }
        all
    }

    /// The first of them alone.
    fn first(chain: &Chain, a: &mut Assembler, writing: Writing) -> u16 {
        let open = chain.write(a, writing).sum;
        let unit = a.unit_type();
        let telling = a.sum(unit, unit);
        let parts = a.product(telling, open);
        a.recursive(parts)
    }
}

/// The shortest value of each of the types.
pub const VALUE: [u8; 6] = [4, 3, 1, 0, 1, 0];

/// A body of m nodes, one of them its variable, unfolds to 2 m. Function 1 + k takes a value of type k as an
/// ancilla and gives unit for unit, so that one term can take all types by turns; function 0 then hands its
/// parameter on.
pub fn shared_chains(large: &Large, a: &mut Assembler) {
    const CELL: usize = 23;
    let chain = large.chain((large.nodes / 2).saturating_sub(OUTERMOST), Leaf::Variables(1));
    let all = Sharing::write(&chain, a, large.writings());
    let start = a.unit();
    let term = (0..cells(large, 3 + SHARERS, CELL)).fold(start, |term, number| {
        let function = 1 + (number % SHARERS) as u16;
        let ancilla = opened_and_closed(a, &all[number % SHARERS]);
        let unit = a.variable(1);
        let call = a.call(function, &[ancilla, unit]);
        a.let_one(term, call)
    });
    let first = all[0].recursive;
    let given = a.variable(0);
    let closed = Closed::around(large, a, 1 + SHARERS as u16, (given, first), |a, writing| {
        Sharing::first(&chain, a, writing)
    });
    let body = a.let_one(term, closed.term);
    a.function(closed.result, &[first], body);
    let unit = a.unit_type();
    for ty in &all {
        let handed_on = a.variable(1);
        a.function(unit, &[ty.recursive, unit], handed_on);
    }
    closed.function(a);
}

/// A short value, unrolled, taken apart and rolled again. The parameter and a unit are in scope; the let pair
/// binds variables 2 and 3, the case 4.
fn opened_and_closed(a: &mut Assembler, ty: &Sharing) -> u16 {
    let value = short_value(a, ty);
    let unrolled = a.unroll(ty.recursive, value);
    let chain = a.variable(3);
    let branches = [Assembler::inl, Assembler::inr].map(|inject| {
        let [telling, part] = [2, 4].map(|number| a.variable(number));
        let injected = inject(a, ty.chain, part);
        let together = a.pair(telling, injected);
        a.roll(ty.recursive, together)
    });
    let again = a.case(chain, branches[0], branches[1]);
    a.let_pair(unrolled, again)
}

fn short_value(a: &mut Assembler, ty: &Sharing) -> u16 {
    let units = [a.unit(), a.unit()];
    let parts = [a.inl(ty.telling, units[0]), a.inl(ty.chain, units[1])];
    let together = a.pair(parts[0], parts[1]);
    a.roll(ty.recursive, together)
}
