//! Every limit of document 01, named once.

/// Section 1: a program's bytes and its entries.
pub const PROGRAM_BYTES: usize = 32_768;
pub const TYPES: usize = 256;
pub const TERMS: usize = 1_024;
pub const FUNCTIONS: usize = 64;
pub const PARAMETERS: usize = 8;

/// Section 1: variables in scope at one point.
pub const VARIABLES: usize = 32;

/// Section 1: nodes of a type written out as a tree.
pub const TYPE_NODES: u32 = 1_024;

/// Section 1: bytes of one value, and of all ancillae together.
pub const VALUE_BYTES: usize = 1_024;
pub const ANCILLA_BYTES: usize = 1_024;

/// Section 2: the deepest nesting of terms and called bodies.
pub const HEIGHT: u32 = 1_024;
pub const FUEL: u16 = u16::MAX;

/// Section 2: bytes of workspace that a call with the given fuel needs.
pub const fn workspace(fuel: u16) -> usize {
    WORKSPACE_FIXED + WORKSPACE_STEP * fuel as usize
}
const WORKSPACE_FIXED: usize = 32_768;
const WORKSPACE_STEP: usize = 32;

/// Section 5: conversions that stand in one journal.
pub const CONVERSIONS: usize = 64;
