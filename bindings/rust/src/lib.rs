//! The CoreFun engine's calls as safe functions over its static library. Every call answers, whatever the bytes are: nothing
//! panics, and a refusal leaves output and journal as they were. No call takes more than 1,088 KB of stack, as measured.
//!
//! The program format, and what to do about each refusal: docs/USING.md.

pub mod foreign;
mod refusal;
mod stopped;

use foreign::{Run, Told};

pub use refusal::{Offset, Refusal, TermEntry};
pub use stopped::Stopped;

/// A value has at most so many bytes, so that an output of this length is never too short for one.
pub const VALUE_BYTES: usize = 1024;

/// The fields of all entries of a journal have at most so many bytes: 64 entries, each of tag and length (3), function and steps (6),
/// and ancillae of at most `VALUE_BYTES` together. An output of this length is never too short for `workshop`.
pub const ENTRIES_BYTES: usize = 64 * (3 + 6 + VALUE_BYTES);

/// Bytes of the line that answers a call of a script.
pub const LINE_BYTES: usize = 7;

/// The version of the engine and of this crate; CHANGELOG.md says what changes with it.
pub const VERSION: &str = env!("CARGO_PKG_VERSION");

/// What a run, a conversion or a rollback has done.
#[derive(Clone, Copy, PartialEq, Eq, Debug)]
pub struct Done {
    /// Bytes of the value, which fills the output from its start or is now held in the journal.
    pub length: usize,
    pub steps: u32,
}

/// What the nurse's reader sees of a journal.
#[derive(Clone, Copy, PartialEq, Eq, Debug)]
pub struct Seen {
    /// Bytes of the held value, which fills the output from its start.
    pub length: usize,
    /// How many conversions stand.
    pub standing: usize,
}

/// Bytes of workspace that a call with the given fuel needs; a call without fuel needs those of fuel 0.
pub const fn workspace_bytes(fuel: u16) -> usize {
    32_768 + 32 * fuel as usize
}

/// Is the program accepted? It needs `workspace_bytes(0)`.
///
/// # Errors
/// Refusals 1 to 8.
pub fn check(program: &[u8], workspace: &mut [u8]) -> Result<(), Refusal> {
    read(foreign::check(program, workspace)).map(|_| ())
}

/// Runs a function forward on a value, within so many steps. It needs `workspace_bytes(fuel)`; an output of `VALUE_BYTES` is never too short.
///
/// # Errors
/// Refusals 1 to 15 and 17.
pub fn forward(
    program: &[u8],
    function: u16,
    ancillae: &[u8],
    value: &[u8],
    fuel: u16,
    workspace: &mut [u8],
    output: &mut [u8],
) -> Result<Done, Refusal> {
    read(foreign::forward(&Run { program, function, ancillae, value, fuel }, workspace, output))
}

/// Runs a function backward: the output becomes the input that the function carries to the value. It needs what `forward` needs.
///
/// # Errors
/// Refusals 1 to 17.
pub fn backward(
    program: &[u8],
    function: u16,
    ancillae: &[u8],
    value: &[u8],
    fuel: u16,
    workspace: &mut [u8],
    output: &mut [u8],
) -> Result<Done, Refusal> {
    read(foreign::backward(&Run { program, function, ancillae, value, fuel }, workspace, output))
}

/// Opens a journal with a record: the buffer becomes the record's field and zeros. It needs `workspace_bytes(0)`.
///
/// # Errors
/// Refusals 1 to 8, 10 and 20.
pub fn open(program: &[u8], record: &[u8], workspace: &mut [u8], journal: &mut [u8]) -> Result<(), Refusal> {
    read(foreign::open(program, record, workspace, journal)).map(|_| ())
}

/// Converts the held record by a function forward, and adds the conversion to those that stand. It needs `workspace_bytes(fuel)`.
///
/// # Errors
/// Refusals 1 to 15, 18 and 20.
pub fn convert(
    program: &[u8],
    function: u16,
    ancillae: &[u8],
    fuel: u16,
    workspace: &mut [u8],
    journal: &mut [u8],
) -> Result<Done, Refusal> {
    read(foreign::convert(program, function, ancillae, fuel, workspace, journal))
}

/// Rolls the newest standing conversion back. It needs `workspace_bytes(fuel)`; the steps that the conversion took are fuel enough.
///
/// # Errors
/// Refusals 1 to 16 and 18 to 20.
pub fn rollback(program: &[u8], fuel: u16, workspace: &mut [u8], journal: &mut [u8]) -> Result<Done, Refusal> {
    read(foreign::rollback(program, fuel, workspace, journal))
}

/// Reads a journal at the bedside: the held value fills the output, and nothing else of the journal is told but how many conversions
/// stand. It needs no program and no workspace; an output of `VALUE_BYTES` is never too short.
///
/// # Errors
/// Refusals 17 and 18.
pub fn nurse(journal: &[u8], output: &mut [u8]) -> Result<Seen, Refusal> {
    let [number, place, length, standing] = foreign::nurse(journal, output);
    accepted(number, place)?;
    Ok(Seen { length: length as usize, standing: standing as usize })
}

/// Reads a journal at the desk: the fields of all standing conversions, oldest first, fill the output as they stand; how many bytes
/// they have, 0 where none stands. It needs no program and no workspace; an output of `ENTRIES_BYTES` is never too short.
///
/// # Errors
/// Refusals 17 and 18.
pub fn workshop(journal: &[u8], output: &mut [u8]) -> Result<usize, Refusal> {
    read(foreign::workshop(journal, output)).map(|done| done.length)
}

/// Plays a script of open, convert and rollback calls on one journal (the form of scripts and answers: docs/USING.md): how many calls
/// were played. Each answer takes `LINE_BYTES` of `answers`.
///
/// # Errors
/// Why the playing stopped before the script's end.
pub fn replay(
    program: &[u8],
    script: &[u8],
    workspace: &mut [u8],
    journal: &mut [u8],
    answers: &mut [u8],
) -> Result<usize, Stopped> {
    ending(foreign::replay(program, script, workspace, journal, answers))
}

/// Numbers are 0 to 20, places and steps under 2^32, by the library's contracts.
fn read([number, place, length, steps]: Told) -> Result<Done, Refusal> {
    accepted(number, place)?;
    Ok(Done { length: length as usize, steps: steps as u32 })
}

fn accepted(number: u64, place: u64) -> Result<(), Refusal> {
    match number {
        0 => Ok(()),
        _ => Err(refusal(number, place)),
    }
}

fn refusal(number: u64, place: u64) -> Refusal {
    let told = u8::try_from(number).ok().and_then(|number| Refusal::new(number, place as u32));
    told.expect("the library tells numbers from 1 to 20")
}

/// The endings are numbered as in include/corefun.h.
fn ending([ending, at, number, place]: Told) -> Result<usize, Stopped> {
    let at = at as usize;
    match ending {
        0 => Ok(at),
        1 => Err(Stopped::Malformed(at)),
        2 => Err(Stopped::TooWide(at)),
        3 => Err(Stopped::ShortAnswers),
        4 => Err(Stopped::Unopened(refusal(number, place))),
        _ => Err(Stopped::Cut(at)),
    }
}

#[cfg(test)]
mod tests {
    use super::*;

    /// Field 21 with the held value 00, then so many entries of function 1 in 2 steps, with ancillae of so many units.
    fn journal(entries: usize, ancillae: usize) -> Vec<u8> {
        let length = (6 + ancillae as u16).to_be_bytes();
        let entry = [&[0x22, length[0], length[1], 0, 1, 0, 0, 0, 2], &vec![0; ancillae][..]].concat();
        [&[0x21, 0, 1, 0], &entry.repeat(entries)[..]].concat()
    }

    #[test]
    fn readers_tell_what_stands_and_leave_the_rest_of_the_output() {
        let journal = journal(2, 1);
        let mut output = [0x55; 21];
        assert_eq!(nurse(&journal, &mut output), Ok(Seen { length: 1, standing: 2 }));
        assert_eq!((output[0], &output[1..]), (0, &[0x55; 20][..]));
        assert_eq!(workshop(&journal, &mut output), Ok(20));
        assert_eq!((&output[..20], output[20]), (&journal[4..], 0x55));
    }

    #[test]
    fn the_longest_entries_have_as_many_bytes_as_the_constant_says() {
        let journal = journal(64, VALUE_BYTES);
        let mut output = vec![0x55; ENTRIES_BYTES];
        assert_eq!(workshop(&journal, &mut output[1..]), Err(Refusal::Output));
        assert!(output.iter().all(|&byte| byte == 0x55));
        assert_eq!(workshop(&journal, &mut output), Ok(ENTRIES_BYTES));
        assert_eq!(output, journal[4..]);
    }

    #[test]
    fn a_nurse_who_is_refused_has_her_output_as_it_was() {
        let pattern: Vec<u8> = (0x51..0x71).collect();
        let held = [4, 2, 4, 2, 4, 1, 0];
        let sound = [&[0x21, 0, held.len() as u8], &held[..], &[0x22, 0, 6, 0, 1, 0, 0, 0, 2]].concat();
        for length in 0..held.len() {
            let mut output = pattern[..length].to_vec();
            assert_eq!(nurse(&sound, &mut output), Err(Refusal::Output));
            assert_eq!(output, pattern[..length]);
        }
        for malformed in [&[][..], &sound[..sound.len() - 1], &sound[..5], &[&sound[..], &[0, 7]].concat()] {
            let mut output = pattern.clone();
            assert_eq!(nurse(malformed, &mut output), Err(Refusal::Journal));
            assert_eq!(output, pattern);
        }
        let mut output = pattern.clone();
        assert_eq!(nurse(&sound, &mut output), Ok(Seen { length: held.len(), standing: 1 }));
        assert_eq!(output, [&held, &pattern[held.len()..]].concat());
    }

    #[test]
    fn a_journal_that_is_malformed_is_met_before_an_output_that_is_too_short() {
        for malformed in [vec![], journal(65, 0), journal(1, VALUE_BYTES + 1)] {
            assert_eq!(nurse(&malformed, &mut []), Err(Refusal::Journal));
            assert_eq!(workshop(&malformed, &mut []), Err(Refusal::Journal));
        }
        assert_eq!(nurse(&journal(0, 0), &mut []), Err(Refusal::Output));
        assert_eq!(workshop(&journal(0, 0), &mut []), Ok(0));
    }
}
