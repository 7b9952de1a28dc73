//! The entries of a journal (document 01, section 5) taken apart for reading. Which bytes are a journal, and where its entries stand, the
//! engine says: what is taken apart here is what its workshop's reader writes.

/// Tag and length, in front of the body of any field.
pub const FIELD_HEADER: usize = 3;

const CONVERSION: u8 = 0x22;
const ENTRY_HEADER: usize = 6;

#[derive(Clone, PartialEq, Eq, Debug)]
pub struct Conversion {
    pub function: u16,
    pub steps: u32,
    pub ancillae: Vec<u8>,
}

impl Conversion {
    /// The fuel that its rollback takes: the steps that it was recorded with.
    pub fn rollback_fuel(&self) -> u16 {
        u16::try_from(self.steps).unwrap_or(u16::MAX)
    }
}

/// The conversions of entries as the workshop's reader writes them, oldest first.
///
/// # Panics
/// On bytes that it never writes.
pub fn conversions(mut entries: &[u8]) -> Vec<Conversion> {
    let mut conversions = Vec::new();
    while !entries.is_empty() {
        let (oldest, rest) = split_oldest(entries).expect("whole entries, by the reader's contract");
        conversions.push(oldest);
        entries = rest;
    }
    conversions
}

/// The first entry, and the fields behind it.
fn split_oldest(entries: &[u8]) -> Option<(Conversion, &[u8])> {
    let (&[CONVERSION, high, low], rest) = entries.split_first_chunk::<FIELD_HEADER>()? else { return None };
    let (body, rest) = rest.split_at_checked(usize::from(u16::from_be_bytes([high, low])))?;
    let (&[a, b, c, d, e, f], ancillae) = body.split_first_chunk::<ENTRY_HEADER>()?;
    let (function, steps) = (u16::from_be_bytes([a, b]), u32::from_be_bytes([c, d, e, f]));
    Some((Conversion { function, steps, ancillae: ancillae.to_vec() }, rest))
}

#[cfg(test)]
mod tests {
    use super::*;

    #[test]
    fn the_entry_of_document_01() {
        let entry = [0x22, 0, 13, 0, 0, 0, 0, 0, 28, 4, 2, 4, 2, 4, 1, 0];
        let plus = Conversion { function: 0, steps: 28, ancillae: vec![4, 2, 4, 2, 4, 1, 0] };
        let bare = Conversion { function: 258, steps: 65_536, ancillae: vec![] };
        let both = [&entry[..], &[0x22, 0, 6, 1, 2, 0, 1, 0, 0]].concat();
        assert_eq!(conversions(&[]), []);
        assert_eq!(conversions(&both[..entry.len()]), std::slice::from_ref(&plus));
        assert_eq!((plus.rollback_fuel(), bare.rollback_fuel()), (28, u16::MAX));
        assert_eq!(conversions(&both), [plus, bare]);
    }
}
