//! Lines that are no calls are refused with a message, never a panic.

use second::calls::{answer, Call};
use second::lines::{read_call, read_hex, write_answer, write_hex};
use second::readers::{ReadCall, Reader};

#[test]
fn malformed_lines_are_refused() {
    let malformed = [
        "",
        " ",
        "nothing",
        "check",
        "check 32768",
        "check x -",
        "check -1 -",
        "check 32768 0",
        "check 32768 0g",
        "check 32768 - -",
        "check  32768 -",
        "check 32768 -\r",
        "forward 32768 0 65536 0 - - 00",
        "forward 32768 0 0 65536 - - 00",
        "forward 32768 0 0 0 - -",
        "open 32768 - 00",
        "convert 32768 0 0 - -",
        "rollback 32768 0 -",
        "nurse",
        "nurse 0",
        "nurse x -",
        "nurse 0 0",
        "nurse 0 - -",
        "workshop 0",
        "workshop -1 -",
        "workshop 0 210001000",
        "workshop 0 - -",
        "check 99999999999999999999999 -",
        "check 32768 é",
    ];
    for line in malformed {
        assert!(read_call(line).is_err(), "{line:?} was read");
    }
}

#[test]
fn readers_have_an_output_and_a_journal() {
    let call = ReadCall { reader: Reader::Nurse, output: 9, journal: vec![0x21, 0, 1, 0] };
    assert_eq!(read_call("nurse 9 21000100"), Ok(Call::Read(call)));
    let answers = [
        ("nurse 1 21000100220006000000000007", "held 00 1"),
        ("nurse 0 21000100220006000000000007", "refused 17 0"),
        ("nurse 9 -", "refused 18 0"),
        ("workshop 9 21000100220006000000000007", "bytes 220006000000000007"),
        ("workshop 8 21000100220006000000000007", "refused 17 0"),
        ("workshop 0 21000100", "bytes -"),
        ("workshop 0 22000100", "refused 18 0"),
    ];
    for (line, expected) in answers {
        let call = read_call(line).expect(line);
        assert_eq!(write_answer(&answer(&call)), expected, "{line}");
    }
}

#[test]
fn bytes_are_pairs_of_digits() {
    assert_eq!(read_hex("-"), Some(vec![]));
    assert_eq!(read_hex("00ffA0"), Some(vec![0, 255, 160]));
    assert_eq!(read_hex("0"), None);
    assert_eq!(write_hex(&[]), "-");
    assert_eq!(write_hex(&[0, 255, 160]), "00ffa0");
}
