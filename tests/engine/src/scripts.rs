//! Scripts of journal calls, played by the engine and by the plain book, and the journals that they leave, read.

use crate::compare::{shared_out, Tally};
use crate::engine::{self, pattern, Replayed};
use second::lines::write_hex;
use second::make::scripts::{script_call, ScriptCall};
use second::rng::Rng;
use second::script::Player;

/// Fresh random scripts, some of them spoilt.
pub fn compare_scripts(seed: u64, count: usize) -> Tally {
    shared_out(seed, count, |seed, count, tally| {
        let mut rng = Rng::new(seed);
        for _ in 0..count {
            let call = script_call(&mut rng);
            let mut book = Player::new(call.program.clone(), call.workspace);
            let (got, expected) = (engine::replay(&call), by_the_book(&mut book, &call));
            let same = got.as_ref().is_ok_and(|got| *got == expected);
            tally.count(same, || difference(&call, &got, &expected));
            if let Ok(Replayed { journal, .. }) = got {
                tally.compare_all(&book.readers(&journal));
            }
        }
    })
}

fn by_the_book(book: &mut Player, call: &ScriptCall) -> Replayed {
    let mut workspace = pattern(call.workspace);
    let (mut journal, mut answers) = (pattern(call.journal), pattern(call.answers));
    let ended = book.replay(&call.script, &mut workspace, &mut journal, &mut answers);
    Replayed { ended, workspace, journal, answers }
}

fn difference(call: &ScriptCall, got: &Result<Replayed, String>, expected: &Replayed) -> String {
    let said = |replayed: &Replayed| {
        let (journal, answers) = (write_hex(&replayed.journal), write_hex(&replayed.answers));
        let left = if replayed.workspace.iter().all(|&byte| byte == 0) { "zero" } else { "not zero" };
        format!("{:?} journal {journal} answers {answers}, workspace {left}", replayed.ended)
    };
    let (program, script) = (write_hex(&call.program), write_hex(&call.script));
    let room = format!("workspace {}, journal {}, answers {}", call.workspace, call.journal, call.answers);
    let got = got.as_ref().map_or_else(String::clone, said);
    format!("replay {program} {script}, {room}\n  engine: {got}\n  book: {}", said(expected))
}
