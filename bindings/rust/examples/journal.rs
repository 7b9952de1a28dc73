//! A journal that is opened, converted, read and rolled back, called from Rust; then the same calls as a script. The program is the
//! one of examples/programs/plus.txt, its bytes in a file.
//!
//! It prints an answer a line: ok JOURNAL, held LENGTH STEPS JOURNAL, or refused NUMBER PLACE; of the two readers held VALUE COUNT and
//! bytes BYTES; then the script's answers.

use corefun::{convert, nurse, open, replay, rollback, workshop, workspace_bytes, Done, Refusal, LINE_BYTES};

const PLUS: u16 = 0;
const FUEL: u16 = 28;

fn main() -> Result<(), Box<dyn std::error::Error>> {
    let file = std::env::args().nth(1).ok_or("usage: journal PROGRAM")?;
    let program = std::fs::read(file)?;
    let mut workspace = vec![0; workspace_bytes(FUEL)];
    let mut journal = vec![0; 40];

    match open(&program, &nat(3), &mut workspace, &mut journal) {
        Ok(()) => println!("ok {}", hexadecimal(&journal)),
        Err(refusal) => print_refusal(refusal),
    }
    let answer = convert(&program, PLUS, &nat(2), FUEL, &mut workspace, &mut journal);
    print(answer, &journal);
    read(&journal);
    let answer = rollback(&program, FUEL, &mut workspace, &mut journal);
    print(answer, &journal);
    read(&journal);
    let answer = rollback(&program, FUEL, &mut workspace, &mut journal);
    print(answer, &journal);

    let mut answers = vec![0; 4 * LINE_BYTES];
    let played = replay(&program, &script(), &mut workspace, &mut journal, &mut answers)?;
    println!("played {played} {}", hexadecimal(&answers));
    Ok(())
}

/// A journal as it stands, read at the bedside and at the desk. No reader writes more than the journal's own bytes.
fn read(journal: &[u8]) {
    let mut output = vec![0; journal.len()];
    match nurse(journal, &mut output) {
        Ok(seen) => println!("held {} {}", hexadecimal(&output[..seen.length]), seen.standing),
        Err(refusal) => print_refusal(refusal),
    }
    match workshop(journal, &mut output) {
        Ok(length) => println!("bytes {}", hexadecimal(&output[..length])),
        Err(refusal) => print_refusal(refusal),
    }
}

/// The four calls above that write the journal, each in a buffer of 40 bytes.
fn script() -> Vec<u8> {
    let opens = [&[0x31, 0, 0, 0, 40, 0, 9], &nat(3)[..]].concat();
    let converts = [&[0x32, 0, 0, 0, 40, 0, 28, 0, 0, 0, 7], &nat(2)[..]].concat();
    let rolls_back = [0x33, 0, 0, 0, 40, 0, 28];
    [&opens[..], &converts, &rolls_back, &rolls_back].concat()
}

/// Nat n is n times 04 02, then 04 01 00.
fn nat(n: usize) -> Vec<u8> {
    [&[4, 2].repeat(n)[..], &[4, 1, 0]].concat()
}

fn print(answer: Result<Done, Refusal>, journal: &[u8]) {
    match answer {
        Ok(done) => println!("held {} {} {}", done.length, done.steps, hexadecimal(journal)),
        Err(refusal) => print_refusal(refusal),
    }
}

fn print_refusal(refusal: Refusal) {
    println!("refused {} {}", refusal.number(), refusal.place());
}

fn hexadecimal(bytes: &[u8]) -> String {
    if bytes.is_empty() {
        return "-".to_string();
    }
    bytes.iter().map(|byte| format!("{byte:02x}")).collect()
}
