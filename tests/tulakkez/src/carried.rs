//! Texts that carry a value to another and back, by the program itself.

use crate::command::{tulakkez, Scratch};
use std::sync::atomic::{AtomicUsize, Ordering};

pub const PLUS: &str = "fun plus (k : Nat) (n : Nat) : Nat = case n of Zero => k | Succ m => Succ (plus k m)\n";

/// The tests run beside each other, each in folders of its own.
pub fn scratch(name: &str) -> Scratch {
    static COUNT: AtomicUsize = AtomicUsize::new(0);
    Scratch::new(&format!("{name}-{}", COUNT.fetch_add(1, Ordering::Relaxed)))
}

/// The last function of the text is f; with these ancillae it carries the one value to the other and back, and the second evaluator, which
/// follows the runs, answers the same. In as many steps both ways, which are answered.
pub fn carries(text: &str, ancillae: &[&str], from: &str, to: &str) -> String {
    let scratch = scratch("carried");
    scratch.file("t.fun", &format!("type Nat = Zero | Succ Nat\ntype Bool = True | False\n{PLUS}{text}\n"));
    let steps = [("run", from, to), ("back", to, from)].map(|(direction, given, answered)| {
        let words = [&[direction, "t.fun", "f"], ancillae, &[given, "--trace=1"]].concat();
        let ran = tulakkez(&scratch.0, &words);
        assert_eq!(ran.status, 0, "{direction} {given}: {}\n{text}", ran.err);
        let mut lines = ran.out.lines().skip(1);
        assert_eq!(lines.next(), Some(answered), "{direction} {given}\n{text}");
        lines.next().expect("the steps").to_string()
    });
    assert_eq!(steps[0], steps[1], "{text}");
    steps[0].clone()
}
