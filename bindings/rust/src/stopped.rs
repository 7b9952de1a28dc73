//! Why the playing of a script stopped.

use crate::Refusal;
use std::fmt;

/// Places are offsets in the script.
#[derive(Clone, Copy, PartialEq, Eq, Debug)]
pub enum Stopped {
    /// No call stands there, or no open at the start: nothing was played.
    Malformed(usize),
    /// The call there names a longer buffer than the journal's: nothing was played.
    TooWide(usize),
    /// There is no room for all answers: nothing was played.
    ShortAnswers,
    /// The first open is refused.
    Unopened(Refusal),
    /// The buffer of the call there would cut the journal's fields: the calls before stand played, with their answers.
    Cut(usize),
}

impl fmt::Display for Stopped {
    fn fmt(&self, f: &mut fmt::Formatter) -> fmt::Result {
        match self {
            Stopped::Malformed(at) => write!(f, "the script is malformed at {at}"),
            Stopped::TooWide(at) => write!(f, "the call at {at} names a longer buffer than the journal's"),
            Stopped::ShortAnswers => write!(f, "there is no room for all answers"),
            Stopped::Unopened(refusal) => write!(f, "the first open is {refusal}"),
            Stopped::Cut(at) => write!(f, "the buffer of the call at {at} would cut the journal's fields"),
        }
    }
}

impl std::error::Error for Stopped {}
