//! The form of a journal file: a header with a check sum, the program's bytes, the journal's bytes as document 01 has them, and the text that
//! the program was built from, for its names (empty where there is none).
//!
//! Header, numbers with the high byte first: the mark `TULAKKEZ`, the version (2 bytes), two zeros, the lengths of program, journal and text
//! (4 bytes each), and the CRC-32 of all other bytes (4 bytes).

const MARK: [u8; 8] = *b"TULAKKEZ";
const VERSION: u16 = 1;
const LENGTHS: usize = 12;
const SUM: usize = 24;
const HEADER: usize = 28;

/// No file of this form is longer: 32,768 bytes of program, 131,072 of journal and a text.
pub const LONGEST: usize = 4 << 20;

#[derive(Clone, PartialEq, Eq, Debug, Default)]
pub struct Contents {
    pub program: Vec<u8>,
    pub journal: Vec<u8>,
    pub text: String,
}

/// Why bytes are not read as a journal file.
#[derive(Clone, Copy, PartialEq, Eq, Debug)]
pub enum Unreadable {
    /// The mark is missing: this is something else.
    Foreign,
    /// A later version's.
    Version(u16),
    /// The check sum or the lengths do not fit.
    Damaged,
    /// The check sum fits, and yet the text is no text.
    Text,
}

impl std::fmt::Display for Unreadable {
    fn fmt(&self, f: &mut std::fmt::Formatter) -> std::fmt::Result {
        match self {
            Unreadable::Foreign => write!(f, "this is no journal file of tulakkez"),
            Unreadable::Version(version) => {
                write!(f, "this journal file is of version {version}, which is not known here")
            }
            Unreadable::Damaged => write!(f, "this journal file is damaged: its check sum does not fit"),
            Unreadable::Text => write!(f, "this journal file is damaged: its text is not in UTF-8"),
        }
    }
}

impl Contents {
    pub fn write(&self) -> Vec<u8> {
        let mut bytes = MARK.to_vec();
        bytes.extend(VERSION.to_be_bytes());
        bytes.extend([0, 0]);
        for length in [self.program.len(), self.journal.len(), self.text.len()] {
            bytes.extend(u32::try_from(length).unwrap_or(u32::MAX).to_be_bytes());
        }
        bytes.extend([0; HEADER - SUM]);
        bytes.extend(&self.program);
        bytes.extend(&self.journal);
        bytes.extend(self.text.as_bytes());
        let sum = check_sum(&bytes);
        bytes[SUM..HEADER].copy_from_slice(&sum.to_be_bytes());
        bytes
    }

    /// # Errors
    /// Bytes that are not such a file, or that are damaged.
    pub fn read(bytes: &[u8]) -> Result<Contents, Unreadable> {
        if !bytes.starts_with(&MARK) {
            return Err(Unreadable::Foreign);
        }
        let number =
            |at: usize| bytes.get(at..at + 4).map(|four| u32::from_be_bytes([four[0], four[1], four[2], four[3]]));
        let stored = number(SUM).ok_or(Unreadable::Damaged)?;
        let version = u16::from_be_bytes([bytes[MARK.len()], bytes[MARK.len() + 1]]);
        if stored != check_sum(bytes) {
            return Err(Unreadable::Damaged);
        }
        if version != VERSION {
            return Err(Unreadable::Version(version));
        }
        let mut at = HEADER;
        let mut part = |place: usize| {
            let length = number(LENGTHS + 4 * place)? as usize;
            let part = bytes.get(at..at.checked_add(length)?)?;
            at += length;
            Some(part.to_vec())
        };
        let parts = (part(0), part(1), part(2));
        let (Some(program), Some(journal), Some(text)) = parts else { return Err(Unreadable::Damaged) };
        if at != bytes.len() {
            return Err(Unreadable::Damaged);
        }
        let text = String::from_utf8(text).map_err(|_| Unreadable::Text)?;
        Ok(Contents { program, journal, text })
    }
}

/// The reflected polynomial of CRC-32 as Ethernet and zip have it.
const POLYNOMIAL: u32 = 0xEDB8_8320;

/// The CRC-32 of all bytes of a file but those that hold it.
fn check_sum(bytes: &[u8]) -> u32 {
    let held = SUM..HEADER;
    let summed = bytes.iter().enumerate().filter(|(at, _)| !held.contains(at)).map(|(_, byte)| *byte);
    !crc(summed, u32::MAX)
}

fn crc(bytes: impl Iterator<Item = u8>, start: u32) -> u32 {
    bytes.fold(start, |sum, byte| TABLE[usize::from((sum as u8) ^ byte)] ^ (sum >> 8))
}

const TABLE: [u32; 256] = table();

const fn table() -> [u32; 256] {
    let mut table = [0; 256];
    let mut byte = 0;
    while byte < 256 {
        let mut sum = byte as u32;
        let mut bit = 0;
        while bit < 8 {
            sum = if sum & 1 == 1 { (sum >> 1) ^ POLYNOMIAL } else { sum >> 1 };
            bit += 1;
        }
        table[byte] = sum;
        byte += 1;
    }
    table
}

#[cfg(test)]
mod tests {
    use super::*;

    fn example() -> Contents {
        Contents { program: vec![1, 0, 1, 0], journal: vec![0x21, 0, 1, 0, 0, 0], text: "-- nothing".into() }
    }

    #[test]
    fn the_check_sum_is_crc_32() {
        assert_eq!(!crc(b"123456789".iter().copied(), u32::MAX), 0xCBF4_3926);
    }

    #[test]
    fn what_is_written_is_read() {
        assert_eq!(Contents::read(&example().write()), Ok(example()));
        assert_eq!(Contents::read(&Contents::default().write()), Ok(Contents::default()));
    }

    #[test]
    fn a_text_that_is_none_is_told_as_such() {
        let mut bytes = example().write();
        *bytes.last_mut().expect("a text") = 0xff;
        let sum = check_sum(&bytes);
        bytes[SUM..HEADER].copy_from_slice(&sum.to_be_bytes());
        assert_eq!(Contents::read(&bytes), Err(Unreadable::Text));
    }

    #[test]
    fn every_changed_bit_and_every_cut_is_found() {
        let whole = example().write();
        for at in 0..whole.len() * 8 {
            let mut changed = whole.clone();
            changed[at / 8] ^= 1 << (at % 8);
            let expected = if at / 8 < MARK.len() { Unreadable::Foreign } else { Unreadable::Damaged };
            assert_eq!(Contents::read(&changed), Err(expected), "bit {at}");
        }
        for length in 0..whole.len() {
            assert!(Contents::read(&whole[..length]).is_err(), "length {length}");
        }
        assert_eq!(Contents::read(&[&whole[..], &[0]].concat()), Err(Unreadable::Damaged));
    }
}
