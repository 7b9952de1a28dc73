//! The commands: what is asked for, and the answer.

pub mod answer;
mod bedside;
mod desk;
mod help;
mod journals;
mod load;
mod options;
mod programs;
mod runs;
mod targets;

use crate::engine::Direction;
use answer::{Answer, Status};
use options::Options;

pub use load::Converter;

/// An answer, and whether it is for a script.
pub struct Told {
    pub answer: Answer,
    pub json: bool,
}

/// Does what the words behind the program's name ask for.
pub fn run(words: &[String]) -> Told {
    let json = words.iter().any(|word| word == "--json");
    let plain = |answer| Told { answer, json: false };
    match words.first().map(String::as_str) {
        None => plain(Answer { status: Status::NotAsked, err: help::all(), ..Answer::error("") }),
        Some("--help" | "-h" | "help") => plain(helped(words.get(1))),
        Some("--version" | "-V") => plain(Answer::accepted(version(), Vec::new())),
        Some(name) => match help::find(name) {
            None => Told { answer: unknown(name), json },
            Some(command) => match Options::read(command, &words[1..]) {
                Err(what) => {
                    let usage =
                        format!("tulakkez {}: {what}\n  help: tulakkez {} --help", command.name, command.name);
                    Told { answer: Answer::error(usage), json }
                }
                Ok(options) if options.help => plain(Answer::accepted(help::one(command), Vec::new())),
                Ok(options) => Told { answer: done(command.name, &options), json: options.json },
            },
        },
    }
}

fn done(name: &str, options: &Options) -> Answer {
    let answered = match name {
        "build" => programs::build(options),
        "check" => programs::check(options),
        "show" => programs::show_program(options),
        "run" => runs::run(options, Direction::Forward),
        "back" => runs::run(options, Direction::Backward),
        "open" => journals::open(options),
        "convert" => journals::convert(options),
        "rollback" => journals::rollback(options),
        "journal" if options.bedside => bedside::journal(options),
        "journal" => desk::journal(options),
        "export" => journals::export(options),
        _ => journals::import(options),
    };
    answered.unwrap_or_else(|refused| *refused)
}

fn helped(name: Option<&String>) -> Answer {
    match name.map(|name| (name, help::find(name))) {
        None => Answer::accepted(help::all(), Vec::new()),
        Some((_, Some(command))) => Answer::accepted(help::one(command), Vec::new()),
        Some((name, None)) => unknown(name),
    }
}

fn unknown(name: &str) -> Answer {
    let near = crate::text::mistake::nearest(name, help::COMMANDS.iter().map(|command| command.name));
    let help =
        near.map_or("tulakkez --help lists the commands".to_string(), |near| format!("did you mean {near}?"));
    Answer::error(format!("tulakkez: there is no command {name}\n  help: {help}"))
}

fn version() -> String {
    format!("tulakkez {}\n", env!("CARGO_PKG_VERSION"))
}
