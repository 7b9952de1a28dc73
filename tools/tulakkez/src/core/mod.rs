//! Core programs: types, terms, their bytes, and the places of their entries.

pub mod layout;
pub mod program;
pub mod read;
pub mod term;
pub mod types;

pub use layout::{lay_out, Entry, EntryKind, Layout};
pub use program::Program;
