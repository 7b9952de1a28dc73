//! plus and dup of examples/programs/plus.txt, called from Rust. The program's bytes come from a file:
//!
//! ```text
//! examples/bytes.sh examples/programs/plus.txt > plus.cf
//! cargo run --offline --manifest-path bindings/rust/Cargo.toml --example plus plus.cf
//! ```
//!
//! It prints an answer a line: ok, value VALUE STEPS, or refused NUMBER PLACE.

use corefun::{backward, check, forward, workspace_bytes, Done, Refusal, VALUE_BYTES};

const PLUS: u16 = 0;
const DUP: u16 = 1;

fn main() -> Result<(), Box<dyn std::error::Error>> {
    let file = std::env::args().nth(1).ok_or("usage: plus PROGRAM")?;
    let program = std::fs::read(file)?;
    let mut workspace = vec![0; workspace_bytes(u16::MAX)];
    let mut output = vec![0; VALUE_BYTES];

    match check(&program, &mut workspace) {
        Ok(()) => println!("ok"),
        Err(refusal) => println!("refused {} {}", refusal.number(), refusal.place()),
    }
    for fuel in [28, 27] {
        let answer = forward(&program, PLUS, &nat(2), &nat(3), fuel, &mut workspace, &mut output);
        print(answer, &output);
    }
    let answer = backward(&program, PLUS, &nat(2), &nat(5), 28, &mut workspace, &mut output);
    print(answer, &output);
    let pair = [&[3], &nat(3)[..], &nat(4)].concat();
    let answer = backward(&program, DUP, &[], &pair, 28, &mut workspace, &mut output);
    print(answer, &output);
    Ok(())
}

/// Nat n is n times 04 02, then 04 01 00.
fn nat(n: usize) -> Vec<u8> {
    [&[4, 2].repeat(n)[..], &[4, 1, 0]].concat()
}

fn print(answer: Result<Done, Refusal>, output: &[u8]) {
    match answer {
        Ok(done) => {
            let digits: String = output[..done.length].iter().map(|byte| format!("{byte:02x}")).collect();
            println!("value {digits} {}", done.steps);
        }
        Err(refusal) => println!("refused {} {}", refusal.number(), refusal.place()),
    }
}
