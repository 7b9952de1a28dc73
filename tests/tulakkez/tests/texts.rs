//! Random texts and random programs: built, checked, shown, and built again to the same bytes; run both ways.

use second::calls::{Call, RunCall};
use second::make::Maker;
use second::rng::Rng;
use tulakkez::build::build;
use tulakkez::core::read::read;
use tulakkez::core::{lay_out, Program};
use tulakkez::engine::{check, run, Direction, Run, LARGEST_FUEL};
use tulakkez::show::show;
use tulakkez::text::Source;
use tulakkez::values;
use tulakkez_tests::command::deep;
use tulakkez_tests::random::{random_ancillae, random_text, random_value, Text};

fn built(text: &str) -> (Program, Vec<u8>) {
    let source = Source::new("text", text);
    let mut program = build(&source).unwrap_or_else(|mistakes| {
        let told: String = mistakes.iter().map(|mistake| mistake.told(&source)).collect();
        panic!("{told}\n{text}")
    });
    let bytes = lay_out(&mut program).bytes;
    (program, bytes)
}

fn shown(bytes: &[u8]) -> String {
    show(&mut read(bytes).expect("an accepted program"))
}

#[test]
fn random_texts_are_accepted_and_come_back_from_their_bytes() {
    deep(|| {
        let mut rng = Rng::new(17);
        let (mut accepted, mut over_limits) = (0, 0);
        let mut spelling = Spelling::default();
        for round in 0..1_000 {
            let made = random_text(&mut rng);
            let (program, bytes) = built(&made.text);
            match check(&bytes) {
                Ok(()) => accepted += 1,
                // Now and then there are over 1,024 terms or nodes of a type, or over 32 variables in patterns of many parts.
                Err(refusal) if matches!(refusal.number(), 3 | 5 | 7) => {
                    over_limits += 1;
                    continue;
                }
                Err(refusal) => panic!("round {round}: {refusal}\n{}", made.text),
            }
            let text = shown(&bytes);
            assert_eq!(built(&text).1, bytes, "round {round}\n{}\n{text}", made.text);
            assert_eq!(shown(&built(&text).1), text, "round {round}");
            runs_both_ways(&mut rng, &made, program, &bytes, &mut spelling);
        }
        println!("{accepted} accepted, {over_limits} over the limits");
        assert!(accepted > 900 && spelling.alike * 10 > spelling.all * 9);
    });
}

/// How often a value is written as it was given. A variant that is numbers in ones is written in digits.
#[derive(Default)]
struct Spelling {
    all: usize,
    alike: usize,
}

/// Every function of a random text is the identity, both ways.
fn runs_both_ways(rng: &mut Rng, made: &Text, mut program: Program, bytes: &[u8], spelling: &mut Spelling) {
    for (number, &(variant, has_ancillae)) in made.functions.iter().enumerate() {
        let text = random_value(rng, &made.variants, Some(variant), 3);
        let ty = program.functions[number].result;
        let mut read = |text: &str| values::read(&mut program.types, &Source::new("value", text), Some(ty));
        let value = read(&text).expect("a value");
        let written = values::written(&mut program.types, &value, ty).expect("a value of its type");
        spelling.all += 1;
        spelling.alike += usize::from(written == text);
        assert_eq!(
            values::read(&mut program.types, &Source::new("value", written), Some(ty)).as_ref(),
            Ok(&value)
        );
        let ancillae = if has_ancillae { random_ancillae(rng) } else { Vec::new() };
        for direction in [Direction::Forward, Direction::Backward] {
            let call = Run {
                program: bytes,
                direction,
                function: number as u16,
                ancillae: &ancillae,
                value: &value,
                fuel: LARGEST_FUEL,
            };
            let answer = run(&call).map(|(answer, _)| answer);
            assert_eq!(answer.as_ref(), Ok(&value), "f{number} {text}: {direction:?}\n{}", made.text);
        }
    }
}

/// A text with a word or two in places of others.
fn words_exchanged(rng: &mut Rng, text: &str) -> String {
    let mut words: Vec<&str> = text.split_inclusive(' ').collect();
    for _ in 0..rng.between(1, 2) {
        let (from, to) = (rng.below(words.len()), rng.below(words.len()));
        words[to] = words[from];
    }
    words.concat()
}

/// A text with some pieces in places of others.
fn damaged(rng: &mut Rng, text: &str) -> String {
    let pieces = "( ) => | let case inl [ ] Succ x1 _ 0 , rec X. + : µ \u{0} }".split(' ').collect::<Vec<_>>();
    let mut text: Vec<char> = text.chars().collect();
    for _ in 0..rng.between(1, 3) {
        let at = rng.below(text.len());
        let until = (at + rng.below(8)).min(text.len());
        text.splice(at..until, rng.pick(&pieces).chars());
    }
    text.into_iter().collect()
}

/// Whatever a text is, it is built or its mistakes are told.
#[test]
fn damaged_texts_are_told_and_nothing_panics() {
    deep(|| {
        let mut rng = Rng::new(20);
        let (mut told, mut whole) = (0, 0);
        for _ in 0..3_000 {
            let text = random_text(&mut rng).text;
            let text = if rng.chance(50) { words_exchanged(&mut rng, &text) } else { damaged(&mut rng, &text) };
            let source = Source::new("t", text);
            match build(&source) {
                Ok(mut program) => {
                    let layout = lay_out(&mut program);
                    if let Err(refusal) = check(&layout.bytes) {
                        let mistake =
                            tulakkez::explain::explain(&mut program, &source, &layout, refusal).expect("a place");
                        assert!(!mistake.told(&source).is_empty());
                    }
                    whole += 1;
                }
                Err(mistakes) => {
                    assert!(mistakes.iter().all(|mistake| mistake.told(&source).lines().count() >= 3));
                    told += 1;
                }
            }
        }
        println!("{told} told, {whole} built");
        assert!(told > 1_000 && whole > 50);
    });
}

/// Numbering, repeated types and types that nothing names may differ: `lay_out` gives all such programs the same bytes.
#[test]
fn random_programs_show_as_text_that_builds_to_the_same_program() {
    deep(|| {
        let (mut accepted, mut given) = (0, 0);
        for call in Maker::new(18).take(6_000) {
            given += 1;
            let Some(program) = call.program().filter(|program| check(program).is_ok()) else { continue };
            accepted += 1;
            let mut tree = read(program).expect("an accepted program");
            let canonical = lay_out(&mut tree).bytes;
            let text = shown(program);
            assert_eq!(built(&text).1, canonical, "{text}");
            assert_eq!(shown(&canonical), text);
            assert_eq!(check(&canonical), Ok(()));
        }
        println!("{accepted} of {given} accepted");
        assert!(accepted > 2_000);
    });
}

#[test]
fn the_numbering_of_a_text_does_not_depend_on_its_names() {
    let one = built("type Nat = Zero | Succ Nat\nfun f (n : Nat) : Nat = Succ n").1;
    let other = built("fun g (m : N) : N = S m\ntype N = Z | S N").1;
    assert_eq!(one, other);
}

/// The second evaluator, which follows runs, answers as the engine does, and notes as many terms as there are steps.
#[test]
fn a_run_that_is_followed_has_the_engine_s_answer() {
    deep(|| {
        let (mut followed, mut refused) = (0, 0);
        for call in Maker::new(19).take(3_000) {
            let Call::Run(RunCall { direction, fuel, function, program, ancillae, value, .. }) = call else {
                continue;
            };
            let direction = match direction {
                second::calls::Direction::Forward => Direction::Forward,
                second::calls::Direction::Backward => Direction::Backward,
            };
            let mut converter = tulakkez::command::Converter::of_bytes("p", program);
            let bytes = converter.bytes.clone();
            let call = Run { program: &bytes, direction, function, ancillae: &ancillae, value: &value, fuel };
            let traced = tulakkez::trace::trace(&mut converter, &call, usize::MAX);
            let answer = run(&call);
            assert_eq!(traced.answer, answer);
            match answer {
                Ok((_, steps)) => assert_eq!(traced.lines.len(), steps as usize),
                Err(_) => refused += 1,
            }
            followed += 1;
        }
        println!("{followed} followed, {refused} of them refused");
        assert!(followed > 500 && refused > 50);
    });
}
