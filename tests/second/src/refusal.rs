//! A refusal: its number and its place (section 4).

/// The numbers of section 4's table.
#[derive(Clone, Copy, PartialEq, Eq, PartialOrd, Ord, Debug)]
#[repr(u8)]
pub enum Number {
    Workspace = 1,
    Field = 2,
    Count = 3,
    Reference = 4,
    TypeEntry = 5,
    Mismatch = 6,
    Scope = 7,
    Use = 8,
    NoFunction = 9,
    ValueBytes = 10,
    ValueType = 11,
    Fuel = 12,
    Height = 13,
    Size = 14,
    FirstMatch = 15,
    NoInput = 16,
    Output = 17,
    Journal = 18,
    NothingStanding = 19,
    JournalFull = 20,
}

/// What `place` counts depends on the number: a field's offset for 2 to 8, a term entry for 12 to 16, else 0.
#[derive(Clone, Copy, PartialEq, Eq, Debug)]
pub struct Refusal {
    pub number: Number,
    pub place: u32,
}

impl Number {
    pub fn at(self, place: u32) -> Refusal {
        Refusal { number: self, place }
    }

    /// For the numbers whose place is always 0.
    pub fn plain(self) -> Refusal {
        self.at(0)
    }
}
