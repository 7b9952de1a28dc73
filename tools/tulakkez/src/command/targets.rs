//! Files that answers are written into: what may be replaced, and what is told of the rest.

use super::answer::{Answer, Status};
use super::load::file_error;
use crate::engine;
use crate::journal::form::LONGEST;
use crate::journal::store::{self, Locked, Unstored};
use crate::journal::{Contents, Unreadable};
use std::io;
use std::path::Path;

/// A file that is to be written whole.
pub struct Target<'a> {
    pub name: &'a str,
    /// The file that the answer is made from: even by force it is not replaced.
    pub input: &'a str,
    /// Whether bytes are such as the command writes here. Other bytes are replaced by force only.
    pub ours: fn(&[u8]) -> bool,
    pub force: bool,
}

/// A target that may be written. A file that was there stays locked until it is replaced, so that what was tested is what is replaced.
pub struct Tested<'a> {
    target: &'a Target<'a>,
    locked: Option<Locked>,
}

impl Target<'_> {
    /// That the file that is there, if there is one, may be replaced.
    pub fn tested(&self) -> Result<Tested<'_>, Box<Answer>> {
        let (name, path) = (self.name, Path::new(self.name));
        if store::same(path, Path::new(self.input)) {
            return Err(read_from(name));
        }
        if !store::is_there(path) {
            return Ok(Tested { target: self, locked: None });
        }
        let mut locked = Locked::open(path, || true).map_err(|error| unwritten(name, &error))?;
        if !self.force {
            let old = locked.read(LONGEST).unwrap_or_default();
            if !(self.ours)(&old) {
                return Err(Box::new(Answer::error(there_already(name, &old, "a file of another kind"))));
            }
        }
        Ok(Tested { target: self, locked: Some(locked) })
    }

    /// Another process may have made the file since nothing was there: then that one is tested.
    fn create(&self, bytes: &[u8]) -> Result<Result<(), Unstored>, Box<Answer>> {
        match store::create(Path::new(self.name), bytes) {
            Err(Unstored::Unchanged(error)) if error.kind() == io::ErrorKind::AlreadyExists => {
                Ok(match self.tested()?.locked {
                    Some(locked) => locked.replace(bytes),
                    None => Err(Unstored::Unchanged(error)),
                })
            }
            stored => Ok(stored),
        }
    }
}

impl Tested<'_> {
    pub fn put(self, bytes: &[u8]) -> Result<(), Box<Answer>> {
        let target = self.target;
        let stored = match self.locked {
            Some(locked) => locked.replace(bytes),
            None => target.create(bytes)?,
        };
        stored.map_err(|unstored| {
            let (Unstored::Unchanged(error) | Unstored::Unsynced(error)) = unstored;
            unwritten(target.name, &error)
        })
    }
}

/// What is told where the answer would replace what it is made from.
pub fn read_from(name: &str) -> Box<Answer> {
    Box::new(Answer::error(format!("{name}: error: this is the file that is read\n  help: write into another")))
}

/// The answer was found, and the file for it cannot be written.
fn unwritten(name: &str, error: &io::Error) -> Box<Answer> {
    Box::new(Answer { status: Status::Unwritten, ..*file_error(name, error) })
}

/// What is there, so that nobody forces a journal away unknowingly; `other` is told of a file that is none.
pub fn there_already(name: &str, bytes: &[u8], other: &str) -> String {
    let what = match Contents::read(bytes).map(|contents| engine::nurse(&contents.journal)) {
        Ok(Ok(seen)) => format!("a journal with {}", standing_text(seen.standing)),
        Err(Unreadable::Foreign) => other.to_string(),
        Ok(Err(_)) | Err(_) => "a journal file that cannot be read".to_string(),
    };
    format!("{name}: error: {what} is there\n  help: --force replaces it")
}

pub fn standing_text(standing: usize) -> String {
    match standing {
        0 => "no standing conversion".to_string(),
        1 => "1 standing conversion".to_string(),
        _ => format!("{standing} standing conversions"),
    }
}
