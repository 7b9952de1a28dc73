//! The months of a machine, answered by the engine and by the plain book.

use crate::engine::{self, Replayed};
use second::calls::{Answer, Call, ConvertCall};
use second::lines::{write_answer, write_call, write_hex};
use second::make::scripts::ScriptCall;
use second::months::{months, Months, BUFFER, WORKSPACE};
use second::script::{line, Act, Ended, Player, Step, LINE};
use std::time::Instant;

/// Every answer and the journal at the end are the book's.
pub fn compare_months(seed: u64, weeks: usize, strokes: usize) -> Result<(), String> {
    let clock = Instant::now();
    let made = months(seed, weeks, strokes);
    println!("{weeks} weeks, {}; by the book in {:.1} s", made.tally.text(), clock.elapsed().as_secs_f64());
    let clock = Instant::now();
    call_by_call(&made)?;
    println!("call by call in {:.1} s", clock.elapsed().as_secs_f64());
    let clock = Instant::now();
    whole(made)?;
    println!("as one script in {:.1} s", clock.elapsed().as_secs_f64());
    Ok(())
}

/// The script played by one call.
fn whole(made: Months) -> Result<(), String> {
    let call = ScriptCall {
        program: made.program,
        script: made.script,
        workspace: WORKSPACE,
        journal: BUFFER,
        answers: made.answers.len(),
    };
    let expected = Replayed {
        ended: Ended::Played(made.tally.calls),
        workspace: vec![0; WORKSPACE],
        journal: made.journal,
        answers: made.answers,
    };
    if engine::replay(&call)? == expected {
        Ok(())
    } else {
        Err("the script played whole differs".to_string())
    }
}

/// Each call gets the bytes that the engine itself left, in the front part of the buffer that it names. After each call both readers are
/// held to the book, which is fed the calls once more.
fn call_by_call(made: &Months) -> Result<(), String> {
    let mut book = Player::new(made.program.clone(), WORKSPACE);
    let mut journal = vec![0; BUFFER];
    let mut rest = &made.script[..];
    for (number, expected) in made.answers.chunks(LINE).enumerate() {
        let (step, behind) = Step::read(rest).ok_or("the script ends early")?;
        book.play(&step);
        let Step { buffer, act } = step;
        journal.truncate(buffer);
        let answer = engine::answer(&on_bytes(act, &made.program, &journal))?;
        if line(&answer) != expected {
            let (got, expected) = (write_hex(&line(&answer)), write_hex(expected));
            return Err(format!("call {number} is answered {got} and not {expected}"));
        }
        if let Answer::Opened { journal: left } | Answer::Held { journal: left, .. } = answer {
            journal = left;
        }
        for (call, expected) in book.readers(&journal) {
            if engine::answer(&call)? != expected {
                return Err(format!(
                    "after call {number}: {} is not {}",
                    write_call(&call),
                    write_answer(&expected)
                ));
            }
        }
        journal.resize(BUFFER, 0);
        rest = behind;
    }
    if rest.is_empty() && journal == made.journal {
        Ok(())
    } else {
        Err("the journal at the end differs".to_string())
    }
}

fn on_bytes(act: Act, program: &[u8], journal: &[u8]) -> Call {
    let (workspace, program, journal) = (WORKSPACE, program.to_vec(), journal.to_vec());
    match act {
        Act::Open { record } => Call::Open { workspace, program, record, journal },
        Act::Convert { fuel, function, ancillae } => {
            Call::Convert(ConvertCall { workspace, fuel, function, program, ancillae, journal })
        }
        Act::Rollback { fuel } => Call::Rollback { workspace, fuel, program, journal },
    }
}
