//! Programs over large types within the limits (02, F-4): many terms, types of many nodes, equal types under several numbers. Each
//! family is made for its size, sound or with an end that meets 6 only after all the rest.

pub mod chain;
mod doubled;
mod ends;
mod families;
mod shared;
mod trees;
mod types;

use crate::assemble::Assembler;
use crate::calls::{Call, Direction, RunCall};
use crate::limits::{workspace, FUEL, TERMS, TYPES, TYPE_NODES, VALUE_BYTES};
use chain::{Chain, Leaf, Writing};

/// How the types of a program are large, and what its terms do with them.
#[derive(Clone, Copy, PartialEq, Eq, Debug)]
pub enum Family {
    /// Unrolls and rolls of one recursive entry.
    Unrolls,
    /// Calls that take one entry and give another, which is equal.
    Calls,
    /// Rolls and unrolls by turns of two recursive entries that are equal.
    Rolls,
    /// Rolls and unrolls of a recursive entry whose unfolding is an entry of its own as well.
    Spelled,
    /// Pairs made by terms, compared with each other and with an entry.
    Pairs,
    /// Trees of pairs, as deep as can be, exchanged over and over; but for the result no entry names them.
    Exchanged,
    /// The same, taken apart down to units in the end: no entry names them at all.
    Unnamed,
    /// Unfoldings taken apart by let pairs, and put together again by pairs.
    Rebuilt,
    /// Unfoldings whose body doubles, spelled out and rebuilt by lets that double.
    Doubled,
    /// The same, spelled out no farther than injections need it, and exchanged with what the lets rebuild.
    Unspelled,
    /// Recursive entries that share open ones, by turns, spelled out as far as injections need it.
    Shared,
    /// As many type entries as the nodes allow, no two of them equal, and terms that name all.
    Distinct,
    /// The same with each type written twice.
    Repeated,
    /// Recursive types in recursive ones, rolled and unrolled at both levels.
    Nested,
}

impl Family {
    pub const ALL: [Family; 14] = [
        Family::Unrolls,
        Family::Calls,
        Family::Rolls,
        Family::Spelled,
        Family::Pairs,
        Family::Exchanged,
        Family::Unnamed,
        Family::Rebuilt,
        Family::Doubled,
        Family::Unspelled,
        Family::Shared,
        Family::Distinct,
        Family::Repeated,
        Family::Nested,
    ];

    pub fn name(self) -> &'static str {
        match self {
            Family::Unrolls => "unrolls of one type",
            Family::Calls => "calls between equal types",
            Family::Rolls => "rolls and unrolls of equal types",
            Family::Spelled => "unfoldings spelled out",
            Family::Pairs => "pairs of pairs",
            Family::Exchanged => "trees of pairs exchanged",
            Family::Unnamed => "trees of pairs that no entry names",
            Family::Rebuilt => "unfoldings taken apart and paired",
            Family::Doubled => "unfoldings that double, spelled out",
            Family::Unspelled => "unfoldings that double, not spelled out",
            Family::Shared => "recursive types that share open entries",
            Family::Distinct => "many types",
            Family::Repeated => "many types, each twice",
            Family::Nested => "nested recursive types",
        }
    }

    /// Chains of entries that the family writes, each within its share of a program's types.
    fn chains(self) -> usize {
        match self {
            Family::Unrolls => 1,
            Family::Rebuilt => 3,
            Family::Nested => 4,
            Family::Shared => 1 + shared::SHARERS,
            _ => 2,
        }
    }

    /// Type entries that stand in no chain.
    fn beside_chains(self) -> usize {
        match self {
            Family::Rebuilt | Family::Doubled | Family::Unspelled => 48,
            _ => 16,
        }
    }

    /// The most nodes that a type of the family can have.
    pub fn most_nodes(self) -> usize {
        match self {
            Family::Distinct => types::most_nodes(1),
            Family::Repeated => types::most_nodes(2),
            _ => TYPE_NODES as usize,
        }
    }
}

/// What stands behind the family's own terms.
#[derive(Clone, Copy, PartialEq, Eq, Debug)]
pub enum End {
    Nothing,
    /// Nothing either, but the family's second writing of its type, if it has one, differs from the first in its deepest leaf: 6 at the
    /// first term that compares the two.
    Differing,
    /// A call that takes one more writing of the type.
    Equal,
    /// A call that takes a type with as many nodes and variables, which differs in its deepest leaf: 6 at the call.
    Turned,
    /// A function that makes a pair of 1,024 nodes, or of one more: 6 at the pair.
    Product {
        past: bool,
    },
    /// A function that unrolls to 1,024 nodes, or to one more: 6 at the unroll.
    Unfolding {
        past: bool,
    },
    /// A function that makes a pair of 1,024 nodes, or of one more, of a part of an unfolding: 6 at the pair.
    Part {
        past: bool,
    },
}

impl End {
    pub const ALL: [End; 10] = [
        End::Nothing,
        End::Differing,
        End::Equal,
        End::Turned,
        End::Product { past: false },
        End::Product { past: true },
        End::Unfolding { past: false },
        End::Unfolding { past: true },
        End::Part { past: false },
        End::Part { past: true },
    ];

    /// Whether the family's type is written once more.
    fn writes_again(self) -> bool {
        matches!(self, End::Equal | End::Turned)
    }

    /// Type entries that a function at the limit of nodes needs.
    fn entries(self) -> usize {
        match self {
            End::Product { .. } | End::Unfolding { .. } | End::Part { .. } => ends::LAYERS + ends::BESIDE,
            _ => 0,
        }
    }

    /// Terms of the end.
    fn terms(self) -> usize {
        match self {
            End::Nothing | End::Differing => 0,
            End::Equal | End::Turned => 2,
            End::Product { .. } | End::Unfolding { .. } => 3,
            End::Part { .. } => 17,
        }
    }
}

/// A program by what it is made from.
#[derive(Clone, Copy, PartialEq, Eq, Debug)]
pub struct Large {
    pub family: Family,
    /// The most terms of the program.
    pub terms: usize,
    /// The most nodes of a type that is named or met, but for the end's.
    pub nodes: usize,
    pub end: End,
}

/// The program's bytes, and how many terms and type entries it has.
pub struct Program {
    pub bytes: Vec<u8>,
    pub terms: usize,
    pub types: usize,
}

/// Type entries that stand beside the layers of each chain.
const BESIDE_LAYERS: usize = 13;

/// The fewest terms and nodes with which every family is whole.
pub const LEAST_TERMS: usize = 64;
pub const LEAST_NODES: usize = 128;

impl Large {
    /// A family at its largest.
    pub fn largest(family: Family) -> Large {
        Large { family, terms: TERMS, nodes: family.most_nodes(), end: End::Nothing }
    }

    pub fn program(&self) -> Program {
        let mut a = Assembler::default();
        match self.family {
            Family::Unrolls => families::unrolls(self, &mut a),
            Family::Calls => families::calls(self, &mut a),
            Family::Rolls => families::rolls(self, &mut a),
            Family::Spelled => families::spelled(self, &mut a),
            Family::Pairs => trees::pairs(self, &mut a),
            Family::Exchanged => trees::exchanged_trees(self, &mut a),
            Family::Unnamed => trees::unnamed_trees(self, &mut a),
            Family::Rebuilt => families::rebuilt(self, &mut a),
            Family::Doubled => doubled::doubled_bodies(self, &mut a),
            Family::Unspelled => doubled::unspelled_bodies(self, &mut a),
            Family::Shared => shared::shared_chains(self, &mut a),
            Family::Distinct => types::types(self, &mut a, 1),
            Family::Repeated => types::types(self, &mut a, 2),
            Family::Nested => families::nested(self, &mut a),
        }
        ends::border(self.end, &mut a);
        Program { bytes: a.bytes(), terms: a.terms(), types: a.types() }
    }

    /// Whether the program is accepted.
    pub fn sound(&self) -> bool {
        match self.end {
            End::Nothing | End::Equal => true,
            End::Differing => matches!(self.family, Family::Unrolls | Family::Distinct),
            End::Turned => false,
            End::Product { past } | End::Unfolding { past } | End::Part { past } => !past,
        }
    }

    pub fn check(&self) -> Call {
        Call::Check { workspace: workspace(0), program: self.program().bytes }
    }

    /// A run of the function with most terms, on a short value.
    pub fn forward(&self) -> RunCall {
        let (ancillae, value) = match self.family {
            Family::Unrolls | Family::Rolls | Family::Spelled | Family::Doubled | Family::Nested => {
                (vec![], vec![4, 1, 0])
            }
            Family::Calls => (vec![], vec![1, 0]),
            Family::Pairs => (vec![2, 0], vec![1, 0]),
            Family::Exchanged => (vec![2, 0, 1, 0], vec![2, 0]),
            Family::Unnamed => ([&[2, 0], &trees::one_value()[..]].concat(), trees::one_value()),
            Family::Unspelled => (vec![2, 0], doubled::unspelled_value(self)),
            Family::Shared => (vec![], shared::VALUE.to_vec()),
            Family::Rebuilt => (vec![], [&[4], &[3, 1, 0].repeat(families::LEVELS)[..], &[1, 0]].concat()),
            Family::Distinct | Family::Repeated => (vec![], vec![0]),
        };
        RunCall {
            direction: Direction::Forward,
            workspace: workspace(FUEL),
            output: VALUE_BYTES,
            fuel: FUEL,
            function: 0,
            program: self.program().bytes,
            ancillae,
            value,
        }
    }

    /// The two writings of the family's type, or of what is made of it.
    fn writings(&self) -> [Writing; 2] {
        let turned = self.end == End::Differing;
        [Writing::default(), Writing { turned, renumbered: true, ..Writing::default() }]
    }

    /// A chain of the family, one of as many as it writes; an end may write one more.
    fn chain(&self, nodes: usize, leaf: Leaf) -> Chain {
        let chains = self.family.chains() + usize::from(self.end.writes_again());
        let layers = (TYPES - self.family.beside_chains() - self.end.entries()) / chains - BESIDE_LAYERS;
        Chain { nodes: nodes.max(Chain::least(leaf)), layers, leaf }
    }
}
