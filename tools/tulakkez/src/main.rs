//! The command `tulakkez`.

use std::io::{self, Write};
use std::process::ExitCode;
use tulakkez::command::answer::{Answer, Status};
use tulakkez::command::{run, Told};

/// Deeply nested texts and the engine's deepest calls have room in it; what is not used is never taken.
const STACK: usize = 256 << 20;

fn main() -> ExitCode {
    let words = std::env::args_os().skip(1).map(|word| word.into_string());
    let told = match words.collect::<Result<Vec<String>, _>>() {
        Ok(words) => {
            std::thread::Builder::new().stack_size(STACK).spawn(move || run(&words)).map(|thread| thread.join())
        }
        Err(_) => Ok(Ok(Told { answer: Answer::error("tulakkez: an argument is not in UTF-8"), json: false })),
    };
    match told {
        Ok(Ok(told)) => tell(&told),
        _ => ExitCode::from(Status::NotAsked as u8),
    }
}

/// Writes the answer. An accepted call whose answer cannot be written has been made all the same: the exit status says so.
fn tell(told: &Told) -> ExitCode {
    let answer = &told.answer;
    let out = if told.json { answer.for_scripts().into_bytes() } else { answer.out.clone() };
    let mut status = answer.status;
    if let Err(error) = write_out(&out) {
        let _ = writeln!(io::stderr(), "tulakkez: standard output: {error}");
        if status == Status::Accepted {
            status = Status::Unwritten;
        }
    }
    if !told.json {
        let _ = io::stderr().write_all(answer.err.as_bytes());
    }
    ExitCode::from(status as u8)
}

fn write_out(bytes: &[u8]) -> io::Result<()> {
    let mut out = io::stdout().lock();
    out.write_all(bytes)?;
    out.flush()
}
