//! The two readers of a journal (document 02, F-1).

mod common;

use common::{journal_of, refused, Runs};
use second::calls::{answer, Answer, Call};
use second::draft::{nat, Draft};
use second::journal::{Conversion, Journal};
use second::make::forms::{any_journal, in_buffer, with_other_entries, DAMAGES};
use second::readers::{ReadCall, Reader};
use second::refusal::Number;
use second::rng::Rng;
use second::samples::{dup, longest_journal, nat_bytes, plus};

fn read(reader: Reader, output: usize, journal: &[u8]) -> Answer {
    answer(&Call::Read(ReadCall { reader, output, journal: journal.to_vec() }))
}

fn nurse(output: usize, journal: &[u8]) -> Answer {
    read(Reader::Nurse, output, journal)
}

fn workshop(output: usize, journal: &[u8]) -> Answer {
    read(Reader::Workshop, output, journal)
}

fn seen(value: &[u8], standing: usize) -> Answer {
    Answer::Seen { value: value.to_vec(), standing }
}

fn entries(bytes: &[u8]) -> Answer {
    Answer::Entries { bytes: bytes.to_vec() }
}

fn written(held: Vec<u8>, conversions: Vec<Conversion>) -> Vec<u8> {
    let journal = Journal { held, conversions };
    journal.write(journal.length()).expect("a buffer of the fields' length")
}

fn entry(ancillae: Vec<u8>) -> Conversion {
    Conversion { function: 7, steps: 9, ancillae }
}

/// Section 6, P13: 3 opened, then 5 held and one conversion standing.
#[test]
fn p13_read_at_the_bedside_and_at_the_desk() {
    let program = Draft { functions: vec![plus(0), dup(&nat())] }.bytes();
    let runs = Runs::with_fuel(&program, 28);
    let opened = journal_of(runs.open(&nat_bytes(3), 40));
    assert_eq!(nurse(9, &opened), seen(&nat_bytes(3), 0));
    assert_eq!(workshop(0, &opened), entries(&[]));
    let converted = journal_of(runs.convert(0, &nat_bytes(2), &opened));
    assert_eq!(nurse(13, &converted), seen(&nat_bytes(5), 1));
    let field = [&[0x22, 0x00, 0x0d, 0x00, 0x00, 0x00, 0x00, 0x00, 0x1c], &nat_bytes(2)[..]].concat();
    assert_eq!(workshop(16, &converted), entries(&field));
    let again = journal_of(runs.rollback(&converted));
    assert_eq!((nurse(9, &again), workshop(0, &again)), (nurse(9, &opened), workshop(0, &opened)));
}

#[test]
fn an_output_is_just_long_enough_or_met_with_17() {
    let mut rng = Rng::new(31);
    for _ in 0..400 {
        let journal = any_journal(&mut rng);
        let bytes = in_buffer(&mut rng, &journal);
        let needs = [(Reader::Nurse, journal.held.len()), (Reader::Workshop, journal.entries().len())];
        for (reader, needed) in needs {
            let accepted = read(reader, needed, &bytes);
            assert!(!matches!(accepted, Answer::Refused(_)), "{reader:?} {journal:?}");
            assert_eq!(read(reader, needed + 7, &bytes), accepted);
            for short in [0, needed.saturating_sub(1)] {
                let expected = if short < needed { refused(Number::Output, 0) } else { accepted.clone() };
                assert_eq!(read(reader, short, &bytes), expected, "{reader:?} {journal:?}");
            }
        }
    }
}

/// What the workshop is told is a stretch of the journal's bytes, behind field 21 and up to the zeros.
#[test]
fn entries_are_told_as_they_stand() {
    let mut rng = Rng::new(32);
    for _ in 0..400 {
        let journal = any_journal(&mut rng);
        let bytes = in_buffer(&mut rng, &journal);
        let stretch = &bytes[3 + journal.held.len()..journal.length()];
        assert_eq!(workshop(bytes.len(), &bytes), entries(stretch));
        assert_eq!(nurse(bytes.len(), &bytes), seen(&bytes[3..3 + journal.held.len()], journal.conversions.len()));
    }
}

/// Equal held value, equal count, outputs of equal length: the nurse is told the same, whatever the entries are.
#[test]
fn the_nurse_sees_no_entries() {
    let mut rng = Rng::new(33);
    let mut others = 0;
    for _ in 0..400 {
        let one = any_journal(&mut rng);
        let other = with_other_entries(&mut rng, &one);
        let [one, other] = [one, other].map(|journal| in_buffer(&mut rng, &journal));
        for output in [0, 1, 9, 40, 1023, 1024] {
            assert_eq!(nurse(output, &one), nurse(output, &other));
        }
        others += usize::from(workshop(one.len(), &one) != workshop(other.len(), &other));
    }
    assert!(others > 200, "only {others} pairs differ to the workshop");
}

/// 18 comes before 17, and its place is 0.
#[test]
fn each_damage_is_met_with_18_whatever_the_output_is() {
    let mut rng = Rng::new(34);
    for (name, damage) in DAMAGES {
        for _ in 0..100 {
            let journal = any_journal(&mut rng);
            let bytes = damage(&mut rng, journal);
            for output in [0, 1, 70_000] {
                let expected = refused(Number::Journal, 0);
                assert_eq!(nurse(output, &bytes), expected, "{name}: {bytes:?}");
                assert_eq!(workshop(output, &bytes), expected, "{name}: {bytes:?}");
            }
        }
    }
}

#[test]
fn limits_of_a_journal_exactly_and_one_past() {
    let value = |length: usize| [vec![4; length - 1], vec![0]].concat();
    assert_eq!(nurse(1024, &written(value(1024), vec![])), seen(&value(1024), 0));
    assert_eq!(nurse(2000, &written(value(1025), vec![])), refused(Number::Journal, 0));
    let one = |ancillae: Vec<u8>| workshop(2000, &written(vec![0], vec![entry(ancillae)]));
    assert_eq!(one(vec![0; 1024]), entries(&entry(vec![0; 1024]).field()));
    assert_eq!(one(vec![0; 1025]), refused(Number::Journal, 0));
    let many = |count: usize| written(vec![0], vec![entry(Vec::new()); count]);
    assert_eq!(nurse(1, &many(64)), seen(&[0], 64));
    assert_eq!(workshop(576, &many(64)), entries(&entry(Vec::new()).field().repeat(64)));
    assert_eq!(nurse(1, &many(65)), refused(Number::Journal, 0));
    assert_eq!(workshop(585, &many(65)), refused(Number::Journal, 0));
}

/// 64 entries of three, six and 1,024 bytes: no reader writes more.
#[test]
fn the_longest_journal_is_read() {
    let journal = longest_journal();
    assert_eq!(nurse(1024, &journal), seen(&journal[3..1027], 64));
    assert_eq!(workshop(66_112, &journal), entries(&journal[1027..]));
    assert_eq!(workshop(66_111, &journal), refused(Number::Output, 0));
}
