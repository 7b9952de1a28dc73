//! Command line of the second evaluator.

use second::bench::bench;
use second::calls::{answer, Call};
use second::cases::cases;
use second::lines::{read_call, write_answer, write_call};
use second::make::choose::choosing_trip;
use second::make::lists::book_list;
use second::make::steer::steered_trip;
use second::make::trips::RoundTrip;
use second::make::Maker;
use second::months::months;
use second::rng::Rng;
use second::slow::slow_calls;
use second::tally::Tally;
use std::io::{self, BufRead, BufWriter, Write};
use std::path::Path;
use std::process::ExitCode;

const USAGE: &str = "\
usage: second answer < CALLS       one answer a line
       second cases                section 6's cases as calls, each limit exactly and one past it, readers of journals
       second make SEED COUNT      COUNT random calls
       second book SEED COUNT      COUNT lists of calls, a line each: CALL = the plain book's ANSWER; readers behind each
       second steer SEED COUNT     COUNT programs with steering: a call forward, the call back on its result, calls back on others
       second choose SEED COUNT    the same with COUNT programs with cases that choose by an ancilla
       second months SEED WEEKS STROKES FOLDER
                                   the months of a machine, STROKES a day, as files: program, script, answers, journal
       second slow SEED COUNT WORK COUNT calls that ask for much, each with fuel to compare some WORK bytes
       second tally < CALLS        how often each answer is met, by call and kind of place
       second bench                time per step, per term and per journal call";

fn main() -> ExitCode {
    let words: Vec<String> = std::env::args().skip(1).collect();
    let words: Vec<&str> = words.iter().map(String::as_str).collect();
    let done = match words[..] {
        ["answer"] => answer_lines(),
        ["cases"] => write_calls(cases()),
        ["make", seed, count] => number(seed).and_then(|seed| make(seed, number(count)?)),
        ["book", seed, count] => number(seed).and_then(|seed| book(seed, number(count)?)),
        ["steer", seed, count] => number(seed).and_then(|seed| trips(seed, number(count)?, steered_trip)),
        ["choose", seed, count] => number(seed).and_then(|seed| trips(seed, number(count)?, choosing_trip)),
        ["months", seed, weeks, strokes, folder] => write_months(seed, weeks, strokes, Path::new(folder)),
        ["slow", seed, count, work] => write_slow(seed, count, work),
        ["tally"] => tally(),
        ["bench"] => {
            bench();
            Ok(())
        }
        _ => Err(USAGE.to_string()),
    };
    match done {
        Ok(()) => ExitCode::SUCCESS,
        Err(message) => {
            eprintln!("{message}");
            ExitCode::FAILURE
        }
    }
}

fn number(word: &str) -> Result<u64, String> {
    word.parse().map_err(|_| format!("not a number: {word:?}\n{USAGE}"))
}

fn answer_lines() -> Result<(), String> {
    let mut output = Output::new();
    for_each_call(|call| output.line(&write_answer(&answer(call))))?;
    output.finish()
}

fn make(seed: u64, count: u64) -> Result<(), String> {
    write_calls(Maker::new(seed).take(count as usize))
}

fn trips(seed: u64, count: u64, make: fn(&mut Rng) -> RoundTrip) -> Result<(), String> {
    let mut rng = Rng::new(seed);
    write_calls((0..count).flat_map(|_| make(&mut rng).into_calls()))
}

fn write_calls(calls: impl IntoIterator<Item = Call>) -> Result<(), String> {
    let mut output = Output::new();
    for call in calls {
        output.line(&write_call(&call))?;
    }
    output.finish()
}

fn write_slow(seed: &str, count: &str, work: &str) -> Result<(), String> {
    let (count, work) = (number(count)? as usize, number(work)? as usize);
    write_calls(slow_calls(number(seed)?).take(count).map(|slow| Call::Run(slow.call(slow.fuel(work)))))
}

fn book(seed: u64, count: u64) -> Result<(), String> {
    let mut output = Output::new();
    let mut rng = Rng::new(seed);
    for _ in 0..count {
        for turn in book_list(&mut rng) {
            let readers = turn.readers();
            for (call, answer) in [(turn.call, turn.answer)].iter().chain(&readers) {
                output.line(&format!("{} = {}", write_call(call), write_answer(answer)))?;
            }
        }
    }
    output.finish()
}

fn write_months(seed: &str, weeks: &str, strokes: &str, folder: &Path) -> Result<(), String> {
    let made = months(number(seed)?, number(weeks)? as usize, number(strokes)? as usize);
    let files = [
        ("program", &made.program),
        ("script", &made.script),
        ("answers", &made.answers),
        ("journal", &made.journal),
    ];
    for (name, bytes) in files {
        let path = folder.join(name);
        std::fs::write(&path, bytes).map_err(|error| format!("{}: {error}", path.display()))?;
    }
    println!("{}", made.tally.text());
    Ok(())
}

fn tally() -> Result<(), String> {
    let mut tally = Tally::default();
    for_each_call(|call| {
        tally.add(call, &answer(call));
        Ok(())
    })?;
    let mut output = Output::new();
    for line in tally.lines() {
        output.line(&line)?;
    }
    output.finish()
}

fn for_each_call(mut work: impl FnMut(&Call) -> Result<(), String>) -> Result<(), String> {
    for (number, line) in io::stdin().lock().lines().enumerate() {
        let line = line.map_err(|error| format!("standard input: {error}"))?;
        let call = read_call(&line).map_err(|error| format!("line {}: {error}", number + 1))?;
        work(&call)?;
    }
    Ok(())
}

struct Output(BufWriter<io::StdoutLock<'static>>);

impl Output {
    fn new() -> Output {
        Output(BufWriter::new(io::stdout().lock()))
    }

    fn line(&mut self, line: &str) -> Result<(), String> {
        writeln!(self.0, "{line}").map_err(said)
    }

    fn finish(mut self) -> Result<(), String> {
        self.0.flush().map_err(said)
    }
}

fn said(error: io::Error) -> String {
    format!("standard output: {error}")
}
