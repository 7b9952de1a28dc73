//! A refusal: what it says, its number, and its place.

use std::fmt;

/// An offset of a field's first byte in the program.
pub type Offset = u32;

/// The number of a term entry in the program.
pub type TermEntry = u32;

/// Why a call was refused, with the place where it has one. A refused call changes neither output nor journal. What to do about each:
/// docs/USING.md.
#[derive(Clone, Copy, PartialEq, Eq, Debug)]
pub enum Refusal {
    /// 1: the workspace is too short.
    Workspace,
    /// 2: a field has a bad tag, kind, length or order.
    Field(Offset),
    /// 3: too many entries, parameters or bytes.
    Count(Offset),
    /// 4: a reference is absent or not lower, or a term is not used just once.
    Reference(Offset),
    /// 5: a named type is not closed, or has over 1,024 nodes.
    TypeEntry(Offset),
    /// 6: types differ, arguments are too many or too few, or a type is too large.
    Mismatch(Offset),
    /// 7: a variable is not in scope, or over 32 are.
    Scope(Offset),
    /// 8: a variable is not used as the rules of use ask.
    Use(Offset),
    /// 9: there is no such function.
    NoFunction,
    /// 10: value bytes are malformed, over the limit or wrong in number.
    ValueBytes,
    /// 11: a value is not of its type.
    ValueType,
    /// 12: the fuel is spent.
    Fuel(TermEntry),
    /// 13: the height passes 1,024.
    Height(TermEntry),
    /// 14: a value is over 1,024 bytes.
    Size(TermEntry),
    /// 15: the left branch may yield the right branch's value.
    FirstMatch(TermEntry),
    /// 16: no input leads to this value.
    NoInput(TermEntry),
    /// 17: the output is too short.
    Output,
    /// 18: the journal is malformed.
    Journal,
    /// 19: no conversion stands.
    NothingStanding,
    /// 20: 64 conversions stand already, or the bytes do not fit.
    JournalFull,
}

/// What the numbers say, from 1 on, in the engine's own words.
const MEANINGS: [&str; 20] = [
    "the workspace is too short",
    "a field has a bad tag, kind, length or order",
    "too many entries, parameters or bytes",
    "a reference is absent or not lower, or a term is not used just once",
    "a named type is not closed, or has over 1,024 nodes",
    "types differ, arguments are too many or too few, or a type is too large",
    "a variable is not in scope, or over 32 are",
    "a variable is not used as the rules of use ask",
    "there is no such function",
    "value bytes are malformed, over the limit or wrong in number",
    "a value is not of its type",
    "the fuel is spent",
    "the height passes 1,024",
    "a value is over 1,024 bytes",
    "the left branch may yield the right branch's value",
    "no input leads to this value",
    "the output is too short",
    "the journal is malformed",
    "no conversion stands",
    "64 conversions stand already, or the bytes do not fit",
];

impl Refusal {
    /// The refusal of a number, 1 to 20, at a place; none for any other number.
    pub fn new(number: u8, place: u32) -> Option<Refusal> {
        Some(match number {
            1 => Refusal::Workspace,
            2 => Refusal::Field(place),
            3 => Refusal::Count(place),
            4 => Refusal::Reference(place),
            5 => Refusal::TypeEntry(place),
            6 => Refusal::Mismatch(place),
            7 => Refusal::Scope(place),
            8 => Refusal::Use(place),
            9 => Refusal::NoFunction,
            10 => Refusal::ValueBytes,
            11 => Refusal::ValueType,
            12 => Refusal::Fuel(place),
            13 => Refusal::Height(place),
            14 => Refusal::Size(place),
            15 => Refusal::FirstMatch(place),
            16 => Refusal::NoInput(place),
            17 => Refusal::Output,
            18 => Refusal::Journal,
            19 => Refusal::NothingStanding,
            20 => Refusal::JournalFull,
            _ => return None,
        })
    }

    /// Its number in document 01, section 4.
    pub fn number(&self) -> u8 {
        match self {
            Refusal::Workspace => 1,
            Refusal::Field(_) => 2,
            Refusal::Count(_) => 3,
            Refusal::Reference(_) => 4,
            Refusal::TypeEntry(_) => 5,
            Refusal::Mismatch(_) => 6,
            Refusal::Scope(_) => 7,
            Refusal::Use(_) => 8,
            Refusal::NoFunction => 9,
            Refusal::ValueBytes => 10,
            Refusal::ValueType => 11,
            Refusal::Fuel(_) => 12,
            Refusal::Height(_) => 13,
            Refusal::Size(_) => 14,
            Refusal::FirstMatch(_) => 15,
            Refusal::NoInput(_) => 16,
            Refusal::Output => 17,
            Refusal::Journal => 18,
            Refusal::NothingStanding => 19,
            Refusal::JournalFull => 20,
        }
    }

    /// The offset of the field in the program, if it is placed at one (2 to 8).
    pub fn offset(&self) -> Option<Offset> {
        match *self {
            Refusal::Field(offset)
            | Refusal::Count(offset)
            | Refusal::Reference(offset)
            | Refusal::TypeEntry(offset)
            | Refusal::Mismatch(offset)
            | Refusal::Scope(offset)
            | Refusal::Use(offset) => Some(offset),
            _ => None,
        }
    }

    /// The term entry, if it is placed at one (12 to 16).
    pub fn term(&self) -> Option<TermEntry> {
        match *self {
            Refusal::Fuel(term)
            | Refusal::Height(term)
            | Refusal::Size(term)
            | Refusal::FirstMatch(term)
            | Refusal::NoInput(term) => Some(term),
            _ => None,
        }
    }

    /// The place as the engine tells it: an offset, a term entry, or 0.
    pub fn place(&self) -> u32 {
        self.offset().or(self.term()).unwrap_or(0)
    }

    /// What it says, in the engine's own words.
    pub fn meaning(&self) -> &'static str {
        MEANINGS[usize::from(self.number()) - 1]
    }
}

impl fmt::Display for Refusal {
    fn fmt(&self, f: &mut fmt::Formatter) -> fmt::Result {
        write!(f, "refused {}: {}", self.number(), self.meaning())?;
        match (self.offset(), self.term()) {
            (Some(offset), _) => write!(f, " (field at offset {offset})"),
            (_, Some(term)) => write!(f, " (term {term})"),
            _ => Ok(()),
        }
    }
}

impl std::error::Error for Refusal {}

#[cfg(test)]
mod tests {
    use super::*;

    #[test]
    fn every_meaning_is_the_engine_s_own_text() {
        let mut rest = include_str!("../../../crates/messages/src/meanings.rt");
        for meaning in MEANINGS {
            let text = format!("b\"{meaning}\"");
            rest = rest.split_once(&text).unwrap_or_else(|| panic!("{text} is not next")).1;
        }
        assert!(!rest.contains("b\""), "the engine has further texts");
    }

    /// The words stand in the enum's documents too, and in the header, with the numbers.
    #[test]
    fn every_meaning_stands_in_the_documents_and_in_the_header() {
        let (own, header) = (include_str!("refusal.rs"), include_str!("../../../include/corefun.h"));
        for (index, meaning) in MEANINGS.iter().enumerate() {
            let number = index + 1;
            assert!(own.contains(&format!("/// {number}: {meaning}.")), "{number}");
            assert!(header.contains(&format!("\"{meaning}\"")), "{number} in the header");
            assert!(header.contains(&format!(" = {number},")) || number == 20, "{number} in the header");
        }
    }

    #[test]
    fn numbers_and_places_come_back() {
        for number in 1..=20 {
            let refusal = Refusal::new(number, 7).expect("a refusal");
            assert_eq!(refusal.number(), number);
            let placed = (2..=8).contains(&number) || (12..=16).contains(&number);
            assert_eq!(refusal.place(), if placed { 7 } else { 0 });
        }
        assert_eq!((Refusal::new(0, 0), Refusal::new(21, 0)), (None, None));
    }

    #[test]
    fn a_refusal_says_its_number_its_meaning_and_its_place() {
        assert_eq!(Refusal::NoFunction.to_string(), "refused 9: there is no such function");
        assert_eq!(Refusal::Fuel(8).to_string(), "refused 12: the fuel is spent (term 8)");
        let count = "refused 3: too many entries, parameters or bytes (field at offset 70)";
        assert_eq!(Refusal::Count(70).to_string(), count);
    }
}
