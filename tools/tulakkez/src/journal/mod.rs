//! Journals in files: the file's form, the journal's entries, and files that are replaced whole.

pub mod fields;
pub mod form;
pub mod store;

pub use fields::{conversions, Conversion, FIELD_HEADER};
pub use form::{Contents, Unreadable};
pub use store::{create, Locked, Unstored};
