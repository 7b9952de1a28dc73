//! The engine's calls with the workspace and the buffers that they need.

use corefun::{workspace_bytes, Done, Refusal, ENTRIES_BYTES, VALUE_BYTES};

/// The largest fuel, which a run has unless another is given.
pub const LARGEST_FUEL: u16 = u16::MAX;

#[derive(Clone, Copy, PartialEq, Eq, Debug)]
pub enum Direction {
    Forward,
    Backward,
}

/// What a run is given.
#[derive(Clone, Debug)]
pub struct Run<'a> {
    pub program: &'a [u8],
    pub direction: Direction,
    pub function: u16,
    pub ancillae: &'a [u8],
    pub value: &'a [u8],
    pub fuel: u16,
}

/// # Errors
/// Refusals 2 to 8.
pub fn check(program: &[u8]) -> Result<(), Refusal> {
    corefun::check(program, &mut vec![0; workspace_bytes(0)])
}

/// The value and the steps.
///
/// # Errors
/// Refusals 2 to 16.
pub fn run(run: &Run) -> Result<(Vec<u8>, u32), Refusal> {
    let mut workspace = vec![0; workspace_bytes(run.fuel)];
    let mut output = vec![0; VALUE_BYTES];
    let call = match run.direction {
        Direction::Forward => corefun::forward,
        Direction::Backward => corefun::backward,
    };
    let Done { length, steps } =
        call(run.program, run.function, run.ancillae, run.value, run.fuel, &mut workspace, &mut output)?;
    output.truncate(length);
    Ok((output, steps))
}

/// The bytes of a journal of this length that holds the record.
///
/// # Errors
/// Refusals 2 to 8, 10 and 20.
pub fn open(program: &[u8], record: &[u8], length: usize) -> Result<Vec<u8>, Refusal> {
    let mut journal = vec![0; length];
    corefun::open(program, record, &mut vec![0; workspace_bytes(0)], &mut journal)?;
    Ok(journal)
}

/// Converts the held record in place.
///
/// # Errors
/// Refusals 2 to 16, 18 and 20; the journal is then as it was.
pub fn convert(
    program: &[u8],
    function: u16,
    ancillae: &[u8],
    fuel: u16,
    journal: &mut [u8],
) -> Result<Done, Refusal> {
    corefun::convert(program, function, ancillae, fuel, &mut vec![0; workspace_bytes(fuel)], journal)
}

/// Rolls the newest conversion back in place.
///
/// # Errors
/// Refusals 2 to 16 and 18 to 20; the journal is then as it was.
pub fn rollback(program: &[u8], fuel: u16, journal: &mut [u8]) -> Result<Done, Refusal> {
    corefun::rollback(program, fuel, &mut vec![0; workspace_bytes(fuel)], journal)
}

/// What the nurse's reader sees of a journal.
#[derive(Clone, PartialEq, Eq, Debug)]
pub struct Seen {
    /// The bytes of the held value.
    pub held: Vec<u8>,
    /// How many conversions stand.
    pub standing: usize,
}

/// # Errors
/// Refusal 18.
pub fn nurse(journal: &[u8]) -> Result<Seen, Refusal> {
    let mut held = vec![0; VALUE_BYTES];
    let seen = corefun::nurse(journal, &mut held)?;
    held.truncate(seen.length);
    Ok(Seen { held, standing: seen.standing })
}

/// The fields of all entries as they stand, oldest first.
///
/// # Errors
/// Refusal 18.
pub fn workshop(journal: &[u8]) -> Result<Vec<u8>, Refusal> {
    let mut entries = vec![0; ENTRIES_BYTES];
    let length = corefun::workshop(journal, &mut entries)?;
    entries.truncate(length);
    Ok(entries)
}
