//! What stands behind a family's own terms: a call that takes one more writing of its type, or a function at the limit of nodes.

use super::chain::{Chain, Leaf, Writing};
use super::{End, Large};
use crate::assemble::Assembler;
use crate::limits::TYPE_NODES;

/// Type entries for the layers of an end's own chains.
pub const LAYERS: usize = 40;

/// Type entries of an end that stand beside the layers.
pub const BESIDE: usize = 32;

/// Functions of an end.
pub const FUNCTIONS: usize = 1;

/// A term with the end's call around it, if it has one, and the type that it then has. `write` writes the type once more, and
/// `number` is of the function that takes it.
pub struct Closed {
    pub term: u16,
    pub result: u16,
    /// The last function's parameter and result.
    taken: Option<u16>,
}

impl Closed {
    pub fn around(
        large: &Large,
        a: &mut Assembler,
        number: u16,
        (term, result): (u16, u16),
        write: impl FnOnce(&mut Assembler, Writing) -> u16,
    ) -> Closed {
        let turned = match large.end {
            End::Equal => false,
            End::Turned => true,
            _ => return Closed { term, result, taken: None },
        };
        let taken = write(a, Writing { turned, renumbered: true, ..Writing::default() });
        Closed { term: a.call(number, &[term]), result: taken, taken: Some(taken) }
    }

    /// The function that the end's call names, behind all others of the family.
    pub fn function(&self, a: &mut Assembler) {
        if let Some(taken) = self.taken {
            let body = a.variable(0);
            a.function(taken, &[taken], body);
        }
    }
}

/// The last function, of a pair or an unfolding at the limit.
pub fn border(end: End, a: &mut Assembler) {
    match end {
        End::Product { past } => pair(past, a),
        End::Unfolding { past } => unfolding(past, a),
        End::Part { past } => part(past, a),
        _ => {}
    }
}

/// Parts of 511 and 512 nodes, or of 512 each. What is past the limit cannot be named.
fn pair(past: bool, a: &mut Assembler) {
    let half = TYPE_NODES as usize / 2;
    let part = |nodes| Chain { nodes, layers: LAYERS / 2, leaf: Leaf::Closed };
    let left = part(half - usize::from(!past)).write(a, Writing::default()).sum;
    let right = part(half).write(a, Writing::default()).sum;
    let result = if past { a.unit_type() } else { a.product(left, right) };
    let parts = [a.variable(0), a.variable(1)];
    let body = a.pair(parts[0], parts[1]);
    a.function(result, &[left, right], body);
}

/// A body of m nodes, k of them its variable, unfolds to m (k + 1): 512 by 2 is 1,024, and 205 by 5 is one more.
fn unfolding(past: bool, a: &mut Assembler) {
    let (nodes, variables) = if past { (205, 4) } else { (512, 1) };
    let chain = Chain { nodes, layers: LAYERS, leaf: Leaf::Variables(variables) };
    let recursive = chain.recursive(a, Writing::default());
    let given = a.variable(0);
    let unrolled = a.unroll(recursive, given);
    let body = a.roll(recursive, unrolled);
    a.function(recursive, &[recursive], body);
}

/// Bodies of 511 nodes with one variable and of 341 with two unfold to 1,022 and 1,023. The right part has two nodes less, and is paired
/// with unit twice, which makes four more; then it is taken out, injected and rolled again.
fn part(past: bool, a: &mut Assembler) {
    let (nodes, variables) = if past { (341, 2) } else { (511, 1) };
    let chain = Chain { nodes, layers: LAYERS / 2, leaf: Leaf::Variables(variables) };
    let recursive = chain.recursive(a, Writing::default());
    let unfolded = chain.write(a, Writing { own: Some(recursive), ..Writing::default() }).sum;
    let given = a.variable(0);
    let unrolled = a.unroll(recursive, given);
    let unit = a.variable(1);
    let injected = a.inl(unfolded, unit);
    let left = a.roll(recursive, injected);
    // The case binds variable 1, the first let pair 2 and 3, the second 4 and 5.
    let taken_out = a.variable(5);
    let injected = a.inr(unfolded, taken_out);
    let rolled = a.roll(recursive, injected);
    let inner_pair = a.variable(3);
    let inner = a.let_pair(inner_pair, rolled);
    let [units, right] = [[a.unit(), a.unit()], [a.variable(1), inner]];
    let once = a.pair(units[0], right[0]);
    let twice = a.pair(units[1], once);
    let right = a.let_pair(twice, right[1]);
    let body = a.case(unrolled, left, right);
    a.function(recursive, &[recursive], body);
}
