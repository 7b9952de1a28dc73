//! Texts: places, mistakes, tokens, the syntax tree and its parser. The grammar is docs/LANGUAGE.md's.

pub mod mistake;
mod parse;
mod parse_terms;
mod parse_types;
pub mod source;
mod token;
pub mod tree;

pub use mistake::Mistake;
pub use parse::{parse_text, parse_value};
pub use source::{Position, Source, Span};
