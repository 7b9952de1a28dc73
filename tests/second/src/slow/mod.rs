//! Calls that ask for much work within the limits: long equal prefixes, many leaves, left-nested pairs, deep rolls, values
//! equal but built apart, fingerprints that collide. A call that is found to be slow is kept (`kept`) by what it is made from.

pub mod chain;
pub mod choose;
pub mod collide;
pub mod leaves;

use crate::calls::{Direction, RunCall};
use crate::draft::{variable, Draft, Function};
use crate::limits::{workspace, FUEL, VALUE_BYTES};
use crate::rng::Rng;
use crate::samples::{doubled, dup, nat_bytes, plus, tuple_bytes, turned};
use chain::{Chain, Layer, TAIL_BITS};
use leaves::{Leaf, Leaves, Rebuilt};

/// What a slow call is made from.
#[derive(Clone, PartialEq, Eq, Debug)]
pub enum Slow {
    Leaves(Leaves),
    /// Section 6's plus: each case compares the ancilla with a longer value.
    Plus {
        direction: Direction,
        ancilla: usize,
        dynamic: usize,
    },
    /// Chains that are read and typed for a single step: an ancilla, and the value that the function hands on.
    Given {
        direction: Direction,
        chain: Chain,
        ancilla_turns: usize,
        turns: usize,
    },
    /// A variable met twice backward, in two chains built apart that have these tails.
    Met {
        chain: Chain,
        turns: usize,
        tails: [u32; 2],
    },
    /// Many variables bound at once, and left in the order in which they were met.
    Scope {
        direction: Direction,
        let_pairs: usize,
    },
}

impl Slow {
    pub fn call(&self, fuel: u16) -> RunCall {
        match self {
            Slow::Leaves(leaves) => leaves.call(fuel),
            Slow::Plus { direction, ancilla, dynamic } => {
                let value = match direction {
                    Direction::Forward => *dynamic,
                    Direction::Backward => ancilla + dynamic,
                };
                call_of(alone(plus(0)), *direction, fuel, nat_bytes(*ancilla), nat_bytes(value))
            }
            Slow::Given { direction, chain, ancilla_turns, turns } => {
                let [ancilla, value] = [ancilla_turns, turns].map(|&turns| chain.bytes(turns, 0));
                call_of(alone(second_given(chain)), *direction, fuel, ancilla, value)
            }
            Slow::Met { chain, turns, tails } => {
                let [first, second] = tails.map(|tail| chain.bytes(*turns, tail));
                let value = [&[3], &first[..], &second].concat();
                call_of(alone(dup(&chain.ty())), Direction::Backward, fuel, Vec::new(), value)
            }
            Slow::Scope { direction, let_pairs } => {
                let draft = doubled(turned(*let_pairs), SCOPE_DOUBLINGS);
                call_of(draft, *direction, fuel, Vec::new(), tuple_bytes(*let_pairs))
            }
        }
    }

    /// A fuel with which the call compares some `work` bytes, if every leaf that is asked walks its whole value; for calls that
    /// end soon, what they need.
    pub fn fuel(&self, work: usize) -> u16 {
        const LEAST: usize = 64;
        match self {
            Slow::Leaves(leaves) => {
                let bytes_of_a_step = leaves.leaves * leaves.value_bytes().len();
                (work / bytes_of_a_step).clamp(LEAST, FUEL as usize) as u16
            }
            // Section 6: P1 takes four steps, and P2 and P5 show that each successor takes eight more.
            Slow::Plus { dynamic, .. } => 4 + 8 * *dynamic as u16,
            Slow::Given { .. } => 1,
            Slow::Met { .. } => 3,
            Slow::Scope { .. } => FUEL,
        }
    }
}

/// A scope of one variable alone is then passed so often that all fuel is spent.
const SCOPE_DOUBLINGS: usize = 14;

/// A call of the last function.
fn call_of(draft: Draft, direction: Direction, fuel: u16, ancillae: Vec<u8>, value: Vec<u8>) -> RunCall {
    RunCall {
        direction,
        workspace: workspace(fuel),
        output: VALUE_BYTES,
        fuel,
        function: (draft.functions.len() - 1) as u16,
        program: draft.bytes(),
        ancillae,
        value,
    }
}

fn alone(function: Function) -> Draft {
    Draft { functions: vec![function] }
}

/// Of an ancilla and a dynamic parameter of one type, the dynamic one.
fn second_given(chain: &Chain) -> Function {
    let ty = chain.ty();
    Function { parameters: vec![ty.clone(), ty.clone()], result: ty, body: variable(1) }
}

/// The calls of a seed: those that are kept, then random ones without end.
pub fn slow_calls(seed: u64) -> impl Iterator<Item = Slow> {
    let mut rng = Rng::new(seed);
    kept().into_iter().chain(std::iter::from_fn(move || Some(choose::slow(&mut rng))))
}

/// Calls that an engine was once slow on.
pub fn kept() -> Vec<Slow> {
    let mut calls = vec![Slow::Leaves(last_bit(LEAVES)), Slow::Leaves(equal_first(PAIRED_LEAVES))];
    for direction in [Direction::Forward, Direction::Backward] {
        calls.push(Slow::Plus { direction, ancilla: 250, dynamic: 250 });
    }
    calls.push(left_nested());
    calls
}

/// The most leaves that the terms of a program allow beside the cases around them.
pub const LEAVES: usize = 273;
pub const PAIRED_LEAVES: usize = 155;

/// Cases around the leaves, as many as the variables in scope and the terms allow with the most leaves.
const NESTED: usize = 17;

/// The longest ancilla that leaves room for a bit and for what the cases decide on beside it.
const LONGEST: usize = VALUE_BYTES - (2 + NESTED);

/// Leaves that differ from the value in the last bit of some 1,000 bytes.
pub fn last_bit(leaves: usize) -> Leaves {
    let chain = Chain { layers: Vec::new(), bits: 1 };
    Leaves {
        direction: Direction::Backward,
        nested: NESTED,
        leaves,
        leaf: Leaf::Whole,
        turns: chain.turns_within(LONGEST),
        chain,
        tail: 0,
        rivals: vec![1],
        rebuilt: Rebuilt::Nothing,
    }
}

/// Leaves that differ from the value at their ends and share its fingerprint, made against an engine that has one.
pub fn made_alike(leaves: usize) -> Option<Leaves> {
    let chain = Chain { layers: Vec::new(), bits: TAIL_BITS / 2 };
    let [tail, rival] = collide::colliding(&mut Rng::new(1), &chain, collide::FINGERPRINT?)?;
    Some(Leaves { turns: chain.turns_within(LONGEST), chain, tail, rivals: vec![rival], ..last_bit(leaves) })
}

/// Leaves that are pairs; the first part is equal to the value's.
pub fn equal_first(leaves: usize) -> Leaves {
    Leaves { leaf: Leaf::Paired, rivals: vec![0], ..last_bit(leaves) }
}

/// Pairs nested to the left, some 990 bytes of them, and an ancilla of half as many.
pub fn left_nested() -> Slow {
    let chain = Chain { layers: vec![Layer::Left; 32], bits: 1 };
    let turns = chain.turns_within(VALUE_BYTES);
    Slow::Given { direction: Direction::Forward, ancilla_turns: turns / 2, turns, chain }
}
