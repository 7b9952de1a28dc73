//! Calls and answers as lines of text: words between single spaces, byte strings hexadecimal, `-` for none.
//!
//! ```text
//! check WS PROGRAM                                        ok
//! forward WS OUTLEN FUEL FN PROGRAM ANCILLAE VALUE        value VALUE STEPS
//! backward WS OUTLEN FUEL FN PROGRAM ANCILLAE VALUE       value VALUE STEPS
//! open WS PROGRAM RECORD JOURNAL                          ok JOURNAL
//! convert WS FUEL FN PROGRAM ANCILLAE JOURNAL             held LENGTH STEPS JOURNAL
//! rollback WS FUEL PROGRAM JOURNAL                        held LENGTH STEPS JOURNAL
//! nurse OUTLEN JOURNAL                                    held VALUE COUNT
//! workshop OUTLEN JOURNAL                                 bytes BYTES
//! any of them                                             refused NUMBER PLACE
//! ```

use crate::calls::{Answer, Call, ConvertCall, Direction, RunCall};
use crate::readers::{ReadCall, Reader};
use std::str::FromStr;

pub fn read_call(line: &str) -> Result<Call, String> {
    let mut words = Words(line.split(' '));
    let call = match words.next("a call")? {
        "check" => Call::Check { workspace: words.number("WS")?, program: words.bytes("PROGRAM")? },
        "forward" => Call::Run(words.run(Direction::Forward)?),
        "backward" => Call::Run(words.run(Direction::Backward)?),
        "open" => Call::Open {
            workspace: words.number("WS")?,
            program: words.bytes("PROGRAM")?,
            record: words.bytes("RECORD")?,
            journal: words.bytes("JOURNAL")?,
        },
        "convert" => Call::Convert(ConvertCall {
            workspace: words.number("WS")?,
            fuel: words.number("FUEL")?,
            function: words.number("FN")?,
            program: words.bytes("PROGRAM")?,
            ancillae: words.bytes("ANCILLAE")?,
            journal: words.bytes("JOURNAL")?,
        }),
        "rollback" => Call::Rollback {
            workspace: words.number("WS")?,
            fuel: words.number("FUEL")?,
            program: words.bytes("PROGRAM")?,
            journal: words.bytes("JOURNAL")?,
        },
        "nurse" => Call::Read(words.read(Reader::Nurse)?),
        "workshop" => Call::Read(words.read(Reader::Workshop)?),
        other => return Err(format!("no such call: {other:?}")),
    };
    match words.0.next() {
        None => Ok(call),
        Some(word) => Err(format!("one word too many: {word:?}")),
    }
}

struct Words<'a>(std::str::Split<'a, char>);

impl<'a> Words<'a> {
    fn next(&mut self, what: &str) -> Result<&'a str, String> {
        self.0.next().ok_or_else(|| format!("{what} is missing"))
    }

    fn number<N: FromStr>(&mut self, what: &str) -> Result<N, String> {
        let word = self.next(what)?;
        word.parse().map_err(|_| format!("{what} is not a number in its range: {word:?}"))
    }

    fn bytes(&mut self, what: &str) -> Result<Vec<u8>, String> {
        let word = self.next(what)?;
        read_hex(word).ok_or_else(|| format!("{what} is not hexadecimal: {word:?}"))
    }

    fn run(&mut self, direction: Direction) -> Result<RunCall, String> {
        Ok(RunCall {
            direction,
            workspace: self.number("WS")?,
            output: self.number("OUTLEN")?,
            fuel: self.number("FUEL")?,
            function: self.number("FN")?,
            program: self.bytes("PROGRAM")?,
            ancillae: self.bytes("ANCILLAE")?,
            value: self.bytes("VALUE")?,
        })
    }

    fn read(&mut self, reader: Reader) -> Result<ReadCall, String> {
        Ok(ReadCall { reader, output: self.number("OUTLEN")?, journal: self.bytes("JOURNAL")? })
    }
}

pub fn write_call(call: &Call) -> String {
    match call {
        Call::Check { workspace, program } => format!("check {workspace} {}", write_hex(program)),
        Call::Run(call) => format!(
            "{} {} {} {} {} {} {} {}",
            match call.direction {
                Direction::Forward => "forward",
                Direction::Backward => "backward",
            },
            call.workspace,
            call.output,
            call.fuel,
            call.function,
            write_hex(&call.program),
            write_hex(&call.ancillae),
            write_hex(&call.value)
        ),
        Call::Open { workspace, program, record, journal } => {
            format!("open {workspace} {} {} {}", write_hex(program), write_hex(record), write_hex(journal))
        }
        Call::Convert(call) => format!(
            "convert {} {} {} {} {} {}",
            call.workspace,
            call.fuel,
            call.function,
            write_hex(&call.program),
            write_hex(&call.ancillae),
            write_hex(&call.journal)
        ),
        Call::Rollback { workspace, fuel, program, journal } => {
            format!("rollback {workspace} {fuel} {} {}", write_hex(program), write_hex(journal))
        }
        Call::Read(call) => format!("{} {} {}", call.reader.name(), call.output, write_hex(&call.journal)),
    }
}

pub fn write_answer(answer: &Answer) -> String {
    match answer {
        Answer::Accepted => "ok".to_string(),
        Answer::Value { value, steps } => format!("value {} {steps}", write_hex(value)),
        Answer::Opened { journal } => format!("ok {}", write_hex(journal)),
        Answer::Held { length, steps, journal } => format!("held {length} {steps} {}", write_hex(journal)),
        Answer::Seen { value, standing } => format!("held {} {standing}", write_hex(value)),
        Answer::Entries { bytes } => format!("bytes {}", write_hex(bytes)),
        Answer::Refused(refusal) => format!("refused {} {}", refusal.number as u8, refusal.place),
    }
}

pub fn read_hex(word: &str) -> Option<Vec<u8>> {
    if word == "-" {
        return Some(Vec::new());
    }
    let digits: Option<Vec<u8>> = word.chars().map(|c| c.to_digit(16).map(|digit| digit as u8)).collect();
    let digits = digits.filter(|digits| !digits.is_empty() && digits.len() % 2 == 0)?;
    Some(digits.chunks_exact(2).map(|pair| pair[0] << 4 | pair[1]).collect())
}

pub fn write_hex(bytes: &[u8]) -> String {
    const DIGITS: &[u8; 16] = b"0123456789abcdef";
    if bytes.is_empty() {
        return "-".to_string();
    }
    let digits = bytes.iter().flat_map(|byte| [byte >> 4, byte & 15]);
    digits.map(|digit| DIGITS[digit as usize] as char).collect()
}
