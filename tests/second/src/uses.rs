//! Sets of variables, as wide as the limit of variables in scope asks.

use crate::limits::VARIABLES;

type Word = u64;

const WIDTH: usize = Word::BITS as usize;

/// Bit n mod 64 of word n / 64 stands for variable n.
#[derive(Clone, Copy, PartialEq, Eq, Default)]
pub struct Uses([Word; VARIABLES.div_ceil(WIDTH)]);

impl Uses {
    pub fn only(variable: usize) -> Uses {
        let mut uses = Uses::default();
        uses.0[variable / WIDTH] = 1 << (variable % WIDTH);
        uses
    }

    pub fn has(self, variable: usize) -> bool {
        self.0[variable / WIDTH] >> (variable % WIDTH) & 1 == 1
    }

    pub fn with(mut self, other: Uses) -> Uses {
        self.0.iter_mut().zip(other.0).for_each(|(word, other)| *word |= other);
        self
    }

    pub fn without(mut self, variable: usize) -> Uses {
        self.0[variable / WIDTH] &= !(1 << (variable % WIDTH));
        self
    }
}
