//! The stack that calls take: what docs/USING.md says is enough for each of them, on the program that takes most and on the highest run.

use tulakkez::build::build;
use tulakkez::core::lay_out;
use tulakkez::text::Source;

/// A case whose left branch is as many terms one inside the other as a program may hold: checking it goes as deep, and so does first match.
const DEEP: &str = "type Nat = Zero | Succ Nat\nfun f (x : 1 + Nat) : Nat = case x of inl u => 500 | inr m => m\n";

/// A run of 1,023 terms one inside the other.
const HIGH: &str = "type Nat = Zero | Succ Nat\nfun plus (k : Nat) (n : Nat) : Nat = case n of Zero => k | Succ m => Succ (plus k m)\n";

/// 1,088 KB.
const STATED: usize = 1_088 << 10;

fn bytes(text: &str) -> Vec<u8> {
    lay_out(&mut build(&Source::new("t", text)).expect("a program")).bytes
}

fn nat(number: usize) -> Vec<u8> {
    [&[4, 2].repeat(number)[..], &[4, 1, 0]].concat()
}

/// An open, a conversion by function 0 and its rollback, in a buffer of 4,096 bytes with the largest fuel (docs/USING.md, "Scripts").
fn script(record: &[u8], ancillae: &[u8]) -> Vec<u8> {
    let buffer = [0, 0, 0x10, 0];
    let length = |bytes: &[u8]| (bytes.len() as u16).to_be_bytes();
    let opens = [&[0x31][..], &buffer, &length(record), record].concat();
    let converts = [&[0x32][..], &buffer, &[0xFF, 0xFF, 0, 0], &length(ancillae), ancillae].concat();
    let rolls_back = [&[0x33][..], &buffer, &[0xFF, 0xFF]].concat();
    [opens, converts, rolls_back].concat()
}

/// Every call on a program and a record that function 0 converts.
fn all_calls(program: &[u8], record: &[u8], ancillae: &[u8]) {
    let mut workspace = vec![0; corefun::workspace_bytes(u16::MAX)];
    let mut output = vec![0; corefun::VALUE_BYTES];
    let mut journal = vec![0; 4_096];
    corefun::check(program, &mut workspace).expect("accepted");
    let forward =
        corefun::forward(program, 0, ancillae, record, u16::MAX, &mut workspace, &mut output).expect("a value");
    let value = output[..forward.length].to_vec();
    corefun::backward(program, 0, ancillae, &value, u16::MAX, &mut workspace, &mut output).expect("the record");
    corefun::open(program, record, &mut workspace, &mut journal).expect("opened");
    corefun::convert(program, 0, ancillae, u16::MAX, &mut workspace, &mut journal).expect("converted");
    corefun::nurse(&journal, &mut output).expect("the held value");
    corefun::workshop(&journal, &mut vec![0; corefun::ENTRIES_BYTES]).expect("the entry");
    corefun::rollback(program, u16::MAX, &mut workspace, &mut journal).expect("rolled back");
    let mut answers = vec![0; 3 * corefun::LINE_BYTES];
    let played = corefun::replay(program, &script(record, ancillae), &mut workspace, &mut journal, &mut answers);
    assert_eq!(played, Ok(3));
    assert_eq!([answers[0], answers[7], answers[14]], [0x41, 0x42, 0x42]);
}

#[test]
fn the_stack_that_is_stated_is_enough_for_every_call() {
    let deep = (bytes(DEEP), [&[2][..], &nat(501)].concat(), Vec::new());
    let high = (bytes(HIGH), nat(255), nat(0));
    for (program, record, ancillae) in [deep, high] {
        let thread = std::thread::Builder::new().stack_size(STATED);
        let calls = move || all_calls(&program, &record, &ancillae);
        thread.spawn(calls).expect("a thread").join().expect("all calls answered");
    }
}
