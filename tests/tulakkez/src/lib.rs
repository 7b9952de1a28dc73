//! What the tests of the command `tulakkez` share.

pub mod carried;
pub mod command;
pub mod marked;
pub mod random;
