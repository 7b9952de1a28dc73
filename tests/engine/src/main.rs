//! The engine, linked as a static library, held to the second evaluator: answers, bytes, time and stack.

mod bench;
mod choose;
mod compare;
mod engine;
mod large;
mod months;
mod scripts;
mod slow;
mod stack;
mod steer;
mod trips;

use compare::Tally;
use std::process::ExitCode;

const USAGE: &str = "\
usage: harness lines < CALLS         both answer each call, and are compared
       harness random SEED COUNT     the same on COUNT random calls
       harness steer SEED COUNT      COUNT programs with steering, there and back; enough of them must run both ways
       harness choose SEED COUNT     COUNT programs with cases that choose by an ancilla, there and back; enough of them must run both
                                     ways, and enough of these take a branch that first match would refuse
       harness large SEED COUNT      COUNT programs over large types; checks of the largest must be fast enough beside the second evaluator
       harness lists SEED COUNT      COUNT lists of journal calls, each on the bytes that the engine left
       harness scripts SEED COUNT    COUNT scripts of journal calls, played whole
       harness months SEED WEEKS STROKES
                                     the months of a machine with STROKES a day, call by call and as one script
       harness slow SEED COUNT WORK  COUNT calls that ask for much, each with fuel to compare some WORK bytes; the slowest is told
       harness bench                 a table of times: engine, second evaluator, ratio
       harness stack                 the stack that the deepest calls need";

fn main() -> ExitCode {
    let words: Vec<String> = std::env::args().skip(1).collect();
    let words: Vec<&str> = words.iter().map(String::as_str).collect();
    let done = match words[..] {
        ["lines"] => compare::compare_lines(std::io::stdin().lock()).and_then(report),
        ["random", seed, count] => {
            number(seed).and_then(|seed| report(compare::compare_random(seed, number(count)? as usize)))
        }
        ["steer", seed, count] => {
            number(seed).and_then(|seed| steer::compare_steered(seed, number(count)? as usize)).and_then(report)
        }
        ["choose", seed, count] => {
            number(seed).and_then(|seed| choose::compare_choosing(seed, number(count)? as usize)).and_then(report)
        }
        ["large", seed, count] => {
            let compared =
                number(seed).and_then(|seed| report(large::compare_large(seed, number(count)? as usize)));
            compared.and_then(|()| large::judge())
        }
        ["lists", seed, count] => {
            number(seed).and_then(|seed| report(compare::compare_lists(seed, number(count)? as usize)))
        }
        ["scripts", seed, count] => {
            number(seed).and_then(|seed| report(scripts::compare_scripts(seed, number(count)? as usize)))
        }
        ["months", seed, weeks, strokes] => number(seed)
            .and_then(|seed| months::compare_months(seed, number(weeks)? as usize, number(strokes)? as usize)),
        ["slow", seed, count, work] => number(seed)
            .and_then(|seed| report(slow::compare_slow(seed, number(count)? as usize, number(work)? as usize))),
        ["bench"] => bench::bench(),
        ["stack"] => stack::report(),
        ["deep", group, kilobytes] => number(group).and_then(|group| stack::deep(group, number(kilobytes)?)),
        _ => Err(USAGE.to_string()),
    };
    match done {
        Ok(()) => ExitCode::SUCCESS,
        Err(message) => {
            eprintln!("{message}");
            ExitCode::FAILURE
        }
    }
}

fn number(word: &str) -> Result<u64, String> {
    word.parse().map_err(|_| format!("not a number: {word:?}\n{USAGE}"))
}

fn report(tally: Tally) -> Result<(), String> {
    println!("{} calls compared, {} differ", tally.compared, tally.different);
    match tally {
        Tally { compared: 0, .. } => Err("no call was compared".to_string()),
        Tally { different: 0, .. } => Ok(()),
        _ => Err("the engine and the second evaluator differ".to_string()),
    }
}
