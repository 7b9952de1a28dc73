//! Converters as text, and journals in files, over the CoreFun engine.
//!
//! `text` reads the language of docs/LANGUAGE.md, `build` makes core programs of it, `core` holds them and writes their bytes. The engine
//! checks and runs; nothing here decides what is accepted.

pub mod build;
pub mod choosing;
pub mod command;
pub mod core;
pub mod engine;
pub mod explain;
pub mod journal;
pub mod show;
pub mod steering;
pub mod text;
pub mod trace;
pub mod values;
