//! Large types as chains of entries: layers, each a product or a sum of what stands below it and a closed part beside it, over a
//! leaf. The same chain can be written several times, as entries that are distinct and trees that are equal.

use crate::assemble::Assembler;

/// What stands deepest in a chain. But for a skipping one it is a sum; turned, its two parts are exchanged, so that the tree
/// differs and has as many nodes and variables as before.
#[derive(Clone, Copy, PartialEq, Eq, Debug)]
pub enum Leaf {
    /// No variable.
    Closed,
    /// So many variables of the recursive entry around the chain.
    Variables(usize),
    /// A recursive entry inside, its variable beside the one of the entry around the chain: turned, each skips to the other binder.
    Skipping,
    /// The variables of two recursive entries around the chain.
    Both,
}

impl Leaf {
    pub fn nodes(self) -> usize {
        match self {
            Leaf::Closed => 5,
            Leaf::Variables(count) => (2 * count - 1).max(3),
            Leaf::Skipping => 4,
            Leaf::Both => 3,
        }
    }

    /// The leaf's entry. `own` stands for the outermost variable, where the chain is written as an unfolding.
    fn write(self, a: &mut Assembler, own: Option<u16>, turned: bool) -> u16 {
        let skipped = u8::from(matches!(self, Leaf::Skipping | Leaf::Both));
        let outer = |a: &mut Assembler| own.unwrap_or_else(|| a.bound(skipped));
        let parts = match self {
            Leaf::Closed => {
                let unit = a.unit_type();
                [unit, a.product(unit, unit)]
            }
            Leaf::Variables(1) => [a.unit_type(), outer(a)],
            Leaf::Variables(count) => {
                let first = outer(a);
                [first, (2..count).fold(first, |rest, _| a.product(first, rest))]
            }
            Leaf::Skipping | Leaf::Both => [a.bound(0), outer(a)],
        };
        let [left, right] = if turned { [parts[1], parts[0]] } else { parts };
        let leaf = a.sum(left, right);
        if self == Leaf::Skipping {
            a.recursive(leaf)
        } else {
            leaf
        }
    }
}

/// A chain of so many nodes, in about so many layers; the outermost is a sum with unit on its left, so that it has a short value.
#[derive(Clone, Copy, Debug)]
pub struct Chain {
    pub nodes: usize,
    pub layers: usize,
    pub leaf: Leaf,
}

/// One writing of a chain.
#[derive(Clone, Copy, Default)]
pub struct Writing {
    pub own: Option<u16>,
    pub turned: bool,
    /// Other entry numbers: what stands beside the layers comes behind the leaf, and entries that nothing names between them.
    pub renumbered: bool,
}

/// The outermost sum of a chain, and its right part.
#[derive(Clone, Copy)]
pub struct Written {
    pub sum: u16,
    pub right: u16,
}

/// Nodes of the sum with unit, its right part left out.
const OUTERMOST: usize = 2;

impl Chain {
    /// The fewest nodes that a chain over a leaf has.
    pub fn least(leaf: Leaf) -> usize {
        leaf.nodes() + OUTERMOST
    }

    pub fn write(&self, a: &mut Assembler, writing: Writing) -> Written {
        let Writing { own, turned, renumbered } = writing;
        let early = renumbered.then(|| self.leaf.write(a, own, turned));
        if renumbered {
            a.bound(3);
        }
        let sides = self.sides(a);
        let leaf = early.unwrap_or_else(|| self.leaf.write(a, own, turned));
        self.layers_over(a, &sides, leaf)
    }

    /// The chain beside parts that another one has beside it, too.
    pub fn write_beside(&self, a: &mut Assembler, sides: &Sides, writing: Writing) -> Written {
        let leaf = self.leaf.write(a, writing.own, writing.turned);
        self.layers_over(a, sides, leaf)
    }

    /// The closed parts that stand beside the layers.
    pub fn sides(&self, a: &mut Assembler) -> Sides {
        Sides::write(a, self.widest())
    }

    fn layers_over(&self, a: &mut Assembler, sides: &Sides, leaf: u16) -> Written {
        let mut right = leaf;
        for (number, added) in self.added().into_iter().enumerate() {
            let side = sides.adding(a, added);
            right = match number % 4 {
                0 => a.sum(side, right),
                1 => a.product(right, side),
                2 => a.product(side, right),
                _ => a.sum(right, side),
            };
        }
        Written { sum: a.sum(sides.entries[0], right), right }
    }

    /// The chain under a recursive entry.
    pub fn recursive(&self, a: &mut Assembler, writing: Writing) -> u16 {
        let Written { sum, .. } = self.write(a, writing);
        a.recursive(sum)
    }

    /// The nodes that all layers but the outermost add.
    fn rest(&self) -> usize {
        self.nodes.saturating_sub(Chain::least(self.leaf))
    }

    /// The nodes that most layers add: a power of two, as often as there are layers no more than the rest.
    fn base(&self) -> usize {
        match self.rest() / self.layers.max(1) {
            0..4 => 2,
            wide => 1 << wide.ilog2(),
        }
    }

    fn widest(&self) -> usize {
        2 * self.base()
    }

    /// The nodes that each layer adds, the deepest first. An odd rest begins with three; some layers add twice the base, so that
    /// there are about as many as wanted; the last few add what is left.
    fn added(&self) -> Vec<usize> {
        let base = self.base();
        let mut rest = self.rest();
        let mut added = Vec::new();
        let mut add = |rest: &mut usize, nodes: usize| {
            *rest -= nodes;
            added.push(nodes);
        };
        if rest % 2 == 1 && rest >= 3 {
            add(&mut rest, 3);
        }
        for _ in 0..(rest / base).saturating_sub(self.layers) {
            add(&mut rest, 2 * base);
        }
        while rest >= base {
            add(&mut rest, base);
        }
        while rest >= 2 {
            let most = 1 << rest.ilog2();
            add(&mut rest, most);
        }
        added
    }
}

/// Closed parts beside the layers: number k has 2^(k+1) - 1 nodes.
pub struct Sides {
    entries: Vec<u16>,
}

impl Sides {
    /// Those with which a layer adds up to `widest` nodes.
    fn write(a: &mut Assembler, widest: usize) -> Sides {
        let mut entries = vec![a.unit_type()];
        while 2 << entries.len() <= widest {
            let last = entries[entries.len() - 1];
            entries.push(a.product(last, last));
        }
        Sides { entries }
    }

    /// The part with which a layer adds so many nodes: a power of two, or three.
    fn adding(&self, a: &mut Assembler, nodes: usize) -> u16 {
        if nodes == 3 {
            return a.recursive(self.entries[0]);
        }
        self.entries[nodes.ilog2() as usize - 1]
    }
}
