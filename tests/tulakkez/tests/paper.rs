//! The paper's programs with the paper's results, and the examples of document 01, section 6, written as text.

use tulakkez_tests::command::{root, tulakkez};

/// Runs on a text of examples/texts: direction, words behind the program's name, and the answer's first line.
fn answers(file: &str, runs: &[(&str, &[&str], &str)]) {
    for (direction, words, expected) in runs {
        let words = [&[*direction, file], *words].concat();
        let ran = tulakkez(&root().join("examples/texts"), &words);
        assert_eq!(ran.status, 0, "{words:?}: {}", ran.err);
        assert_eq!(ran.out.lines().next(), Some(*expected), "{words:?}");
    }
}

/// The run is refused with this number.
fn refuses(file: &str, words: &[&str], number: u8) {
    let words = [&[words[0], file], &words[1..]].concat();
    let ran = tulakkez(&root().join("examples/texts"), &words);
    assert_eq!(ran.status, 1, "{words:?}: {}", ran.out);
    assert!(ran.err.contains(&format!("refused {number}: ")), "{words:?}: {}", ran.err);
}

#[test]
fn the_paper_s_programs() {
    answers(
        "paper.fun",
        &[
            // 3.1: all leaves are disjoint.
            ("run", &["swap", "inl ()"], "inr ()"),
            ("run", &["swap", "inr 3"], "inl 3"),
            ("back", &["swap", "inl 3"], "inr 3"),
            ("back", &["swap", "inr ()"], "inl ()"),
            // 3.1: the program that collapses a sum is partial.
            ("run", &["collapse", "inl ()"], "inr inl ()"),
            ("run", &["collapse", "inr inr ()"], "inr inr ()"),
            ("back", &["collapse", "inr inl ()"], "inl ()"),
            // 3.2: plus gives its first argument back with the sum.
            ("run", &["succ", "4"], "5"),
            ("back", &["succ", "5"], "4"),
            ("run", &["plus", "2", "3"], "(2, 5)"),
            ("back", &["plus", "2", "(2, 5)"], "3"),
            // 4.1: variants.
            ("run", &["next", "Red"], "Green"),
            ("back", &["next", "Yellow"], "Green"),
            ("run", &["not", "True"], "False"),
            ("back", &["not", "True"], "False"),
            ("run", &["lift", "2"], "Just 2"),
            ("back", &["lift", "Just 2"], "2"),
        ],
    );
    // "partially reversible when the intended domain does not include inr(inl())"
    refuses("paper.fun", &["run", "collapse", "inr (inl ())"], 15);
    refuses("paper.fun", &["back", "succ", "0"], 16);
    refuses("paper.fun", &["back", "plus", "2", "(3, 5)"], 16);
    refuses("paper.fun", &["back", "lift", "Nothing"], 16);
}

#[test]
fn a_record_with_a_clock_and_strokes() {
    let old = "(Dig I (Dig O (Dig I End)), OCons (Fill, End, 25) (OCons (Drain, Dig I End, 10) ONil))";
    let new = "(NCons (Dig O (Dig O (Dig O End)), Fill, 25) (NCons (Dig O (Dig O (Dig O (Dig I End))), Drain, 10) NNil), Dig O (Dig O (Dig O (Dig I (Dig O (Dig I End))))))";
    answers("clock.fun", &[("run", &["toTicks", old], new), ("back", &["toTicks", new], old)]);
    // A time that is no whole second does not come from the old form.
    refuses("clock.fun", &["back", "ticks", "Dig I End"], 16);
}

#[test]
fn a_calibration_with_an_ancilla() {
    let raw = "Cons (Fill, 7) (Cons (Drain, 1) Nil)";
    let set = "Cons (Fill, 9) (Cons (Drain, 3) Nil)";
    answers("calibration.fun", &[("run", &["calibrate", "2", raw], set), ("back", &["calibrate", "2", set], raw)]);
    refuses("calibration.fun", &["back", "calibrate", "4", set], 16);
}

/// The offset is a part of the record: it is dynamic, and steers (document 02, F-2).
#[test]
fn records_that_carry_their_own_offset() {
    let (raw, set) = ("(1, Cons (Fill, 7) (Cons (Drain, 2) Nil))", "(1, Cons (Fill, 8) (Cons (Drain, 3) Nil))");
    answers(
        "steering.fun",
        &[
            ("run", &["shift", "(2, 3)"], "(2, 5)"),
            ("back", &["shift", "(2, 5)"], "(2, 3)"),
            ("run", &["settle", raw], set),
            ("back", &["settle", set], raw),
            ("run", &["both", "(1, 2, 3)"], "(1, 3, 5)"),
            ("back", &["both", "(1, 3, 5)"], "(1, 2, 3)"),
            ("run", &["twice", "(2, 3)"], "(2, 7)"),
            ("back", &["twice", "(2, 7)"], "(2, 3)"),
        ],
    );
    // A volume below its offset was never raised by it.
    refuses("steering.fun", &["back", "shift", "(2, 1)"], 16);
    refuses("steering.fun", &["back", "twice", "(2, 3)"], 16);
}

/// The model is an ancilla, and both of its arms may yield any volume (document 02, F-3).
#[test]
fn records_that_the_model_converts() {
    let (old, new) = ("Cons (Fill, 7) (Cons (Drain, 0) Nil)", "Cons (Fill, 9) (Cons (Drain, 2) Nil)");
    answers(
        "choosing.fun",
        &[
            ("run", &["strokes", "Motor", old], new),
            ("back", &["strokes", "Motor", new], old),
            ("run", &["strokes", "Hand", old], old),
            ("back", &["strokes", "Hand", new], new),
            ("run", &["raise", "Offset 2", "3"], "(2, 5)"),
            ("back", &["raise", "Offset 2", "(2, 5)"], "3"),
            ("run", &["raise", "Offset 0", "3"], "(0, 3)"),
            ("back", &["raise", "Plain", "(0, 3)"], "3"),
            ("run", &["pace", "Fast", "3"], "4"),
            ("back", &["pace", "Fast", "4"], "3"),
            ("run", &["pace", "Normal", "3"], "3"),
            ("back", &["pace", "Slow", "3"], "3"),
        ],
    );
    // A motor's volume is 2 at least, and an offset is the one that was given.
    refuses("choosing.fun", &["back", "volume", "Motor", "1"], 16);
    refuses("choosing.fun", &["back", "raise", "Offset 2", "(3, 5)"], 16);
    refuses("choosing.fun", &["back", "raise", "Plain", "(1, 3)"], 16);
}

/// Document 01, P12: what is refused of a pair is given, and comes back, where its first part is an ancilla (document 02, F-3).
#[test]
fn a_flag_flipped_by_another() {
    answers(
        "choosing.fun",
        &[
            ("run", &["pair", "(True, False)"], "False"),
            ("back", &["pair", "True"], "(True, True)"),
            ("run", &["flip", "True", "True"], "True"),
            ("run", &["flip", "False", "True"], "False"),
            ("run", &["flip", "False", "False"], "True"),
            ("back", &["flip", "False", "True"], "False"),
            ("back", &["flip", "False", "False"], "True"),
            ("back", &["flip", "True", "False"], "False"),
        ],
    );
    refuses("choosing.fun", &["run", "pair", "(False, True)"], 15);
    refuses("choosing.fun", &["run", "pair", "(False, False)"], 15);
}

/// Document 01, section 6: values and steps.
#[test]
fn the_cases_of_document_01() {
    let steps = |words: &[&str], expected: &str| {
        let ran = tulakkez(&root().join("examples/texts"), words);
        assert_eq!((ran.status, ran.out.as_str()), (0, expected), "{words:?}: {}", ran.err);
    };
    steps(&["run", "calibration.fun", "plus", "2", "0"], "2\n4 steps\n");
    steps(&["run", "calibration.fun", "plus", "2", "3"], "5\n28 steps\n");
    steps(&["run", "calibration.fun", "plus", "2", "3", "--fuel", "28"], "5\n28 steps\n");
    refuses("calibration.fun", &["run", "plus", "2", "3", "--fuel", "27"], 12);
    steps(&["back", "calibration.fun", "plus", "2", "5"], "3\n28 steps\n");
    refuses("calibration.fun", &["back", "plus", "2", "1"], 16);
    steps(&["run", "calibration.fun", "plus", "0", "255"], "255\n2044 steps\n");
    refuses("calibration.fun", &["run", "plus", "0", "256"], 13);
}
