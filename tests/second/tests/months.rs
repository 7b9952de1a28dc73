//! Scripts of journal calls, how playing one ends, and the months of a machine.

use second::calls::{answer, Answer, Call, ConvertCall};
use second::draft::{nat, Draft};
use second::make::scripts::script_call;
use second::months::{months, BUFFER, WORKSPACE};
use second::refusal::Number;
use second::rng::Rng;
use second::samples::{dup, nat_bytes, plus};
use second::script::{line, Act, Ended, Player, Step, LINE};

const PLUS: u16 = 0;

fn program() -> Vec<u8> {
    Draft { functions: vec![plus(0), dup(&nat())] }.bytes()
}

fn open(buffer: usize, n: usize) -> Step {
    Step { buffer, act: Act::Open { record: nat_bytes(n) } }
}

fn add_two(buffer: usize) -> Step {
    Step { buffer, act: Act::Convert { fuel: 28, function: PLUS, ancillae: nat_bytes(2) } }
}

fn rollback(buffer: usize) -> Step {
    Step { buffer, act: Act::Rollback { fuel: 28 } }
}

fn script(steps: &[Step]) -> Vec<u8> {
    let mut script = Vec::new();
    steps.iter().for_each(|step| step.write(&mut script));
    script
}

struct Left {
    ended: Ended,
    workspace: Vec<u8>,
    journal: Vec<u8>,
    answers: Vec<u8>,
}

/// Plays on a journal of 40 bytes, with room for three answers, all buffers filled with 55 (hexadecimal).
fn play_in(room: usize, script: &[u8]) -> Left {
    let (mut workspace, mut journal, mut answers) = (vec![0x55; room], vec![0x55; 40], vec![0x55; 3 * LINE]);
    let ended = Player::new(program(), room).replay(script, &mut workspace, &mut journal, &mut answers);
    Left { ended, workspace, journal, answers }
}

fn play(script: &[u8]) -> Left {
    play_in(WORKSPACE, script)
}

/// Are the bytes all the same?
fn all(bytes: &[u8], same: u8) -> bool {
    bytes.iter().all(|&byte| byte == same)
}

/// Section 6, P13, in the bytes of scripts and answers.
#[test]
fn the_journal_of_section_6_is_played() {
    let left = play(&script(&[open(12, 3), add_two(32), rollback(40)]));
    assert_eq!(left.ended, Ended::Played(3));
    let lines = [[0x41, 0, 0, 0, 0, 0, 0], [0x42, 0, 13, 0, 0, 0, 28], [0x42, 0, 9, 0, 0, 0, 28]];
    assert_eq!(left.answers, lines.concat());
    assert_eq!(left.journal[..12], [&[0x21, 0, 9], &nat_bytes(3)[..]].concat());
    assert!(all(&left.journal[12..], 0) && all(&left.workspace, 0));
}

#[test]
fn a_script_that_does_not_begin_with_a_call_of_open_is_malformed() {
    for start in [vec![], vec![0x31, 0, 0], script(&[rollback(40)]), vec![0x34, 0, 0, 0, 40, 0, 0]] {
        let left = play(&start);
        assert_eq!(left.ended, Ended::Malformed(0));
        assert!(all(&left.journal, 0x55) && all(&left.answers, 0x55) && all(&left.workspace, 0x55));
    }
}

#[test]
fn a_script_is_read_to_its_end_before_a_call_is_made() {
    let begun = script(&[open(40, 3), add_two(32)]);
    let at = begun.len();
    let mut cut_short = [&begun[..], &script(&[rollback(40)])].concat();
    cut_short.pop();
    let ends = [
        (cut_short, Ended::Malformed(at)),
        ([&begun[..], &script(&[rollback(41)])].concat(), Ended::TooWide(at)),
        ([&begun[..], &script(&[rollback(40), rollback(40)])].concat(), Ended::ShortAnswers),
    ];
    for (script, ended) in ends {
        let left = play(&script);
        assert_eq!(left.ended, ended);
        assert!(all(&left.journal, 0x55) && all(&left.answers, 0x55) && all(&left.workspace, 0x55));
    }
}

#[test]
fn playing_stops_before_the_fields_are_cut() {
    let begun = script(&[open(40, 3), add_two(32)]);
    let left = play(&[&begun[..], &script(&[rollback(31)])].concat());
    assert_eq!(left.ended, Ended::Cut(begun.len()));
    assert_eq!(left.journal[0..3], [0x21, 0, 13]);
    assert_eq!(left.answers[LINE..2 * LINE], [0x42, 0, 13, 0, 0, 0, 28]);
    assert!(all(&left.answers[2 * LINE..], 0x55));
}

#[test]
fn a_first_open_that_is_refused_leaves_journal_and_answers() {
    let left = play(&script(&[open(11, 3)]));
    assert_eq!(left.ended, Ended::Unopened(Number::JournalFull.plain()));
    assert!(all(&left.journal, 0x55) && all(&left.answers, 0x55) && all(&left.workspace, 0));
    let left = play_in(32_767, &script(&[open(40, 3)]));
    assert_eq!(left.ended, Ended::Unopened(Number::Workspace.plain()));
    assert!(all(&left.journal, 0x55) && all(&left.answers, 0x55) && all(&left.workspace, 0x55));
}

/// The calls on bytes, which know no book, answer each call of the months as the book does and leave its journal.
#[test]
fn the_months_on_bytes_are_the_book_s() {
    let made = months(1, 26, 4);
    let mut player = Player::new(made.program.clone(), WORKSPACE);
    let mut journal = vec![0; BUFFER];
    let mut rest = &made.script[..];
    for expected in made.answers.chunks(LINE) {
        let (step, behind) = Step::read(rest).expect("a call stands here");
        player.play(&step);
        let Step { buffer, act } = step;
        assert!(journal[buffer..].iter().all(|&byte| byte == 0), "only zeros are lost");
        journal.truncate(buffer);
        let answer = answer(&on_bytes(act, &made.program, &journal));
        assert_eq!(line(&answer), expected);
        if let Answer::Opened { journal: left } | Answer::Held { journal: left, .. } = answer {
            journal = left;
        }
        readers_are_told(&player, &journal);
        journal.resize(BUFFER, 0);
        rest = behind;
    }
    assert!(rest.is_empty());
    assert_eq!(journal, made.journal);
}

/// Both readers are told what the book has them told.
fn readers_are_told(player: &Player, journal: &[u8]) {
    for (call, expected) in player.readers(journal) {
        assert_eq!(answer(&call), expected, "{call:?}");
    }
}

fn on_bytes(act: Act, program: &[u8], journal: &[u8]) -> Call {
    let (workspace, program, journal) = (WORKSPACE, program.to_vec(), journal.to_vec());
    match act {
        Act::Open { record } => Call::Open { workspace, program, record, journal },
        Act::Convert { fuel, function, ancillae } => {
            Call::Convert(ConvertCall { workspace, fuel, function, program, ancillae, journal })
        }
        Act::Rollback { fuel } => Call::Rollback { workspace, fuel, program, journal },
    }
}

#[test]
fn the_months_are_played_as_a_script() {
    let made = months(2, 26, 4);
    let (mut journal, mut answers) = (vec![0x55; BUFFER], vec![0x55; made.answers.len()]);
    let mut player = Player::new(made.program, WORKSPACE);
    let ended = player.replay(&made.script, &mut vec![0; WORKSPACE], &mut journal, &mut answers);
    assert_eq!(ended, Ended::Played(made.tally.calls));
    assert_eq!((journal, answers), (made.journal, made.answers));
}

/// What a run of 26 weeks is for: changes of firmware and returns, a full journal, every refusal that such a list can meet.
#[test]
fn the_months_meet_what_they_are_for() {
    for seed in 1..=5 {
        let tally = months(seed, 26, 4).tally;
        assert!(tally.upgrades >= 5 && tally.returns >= 3, "{}", tally.text());
        assert!(tally.most_standing == 64 && tally.longest_record > 900, "{}", tally.text());
        for number in [1, 9, 10, 11, 12, 14, 19, 20] {
            assert!(tally.refused[number] > 0, "{number} is not met: {}", tally.text());
        }
    }
}

#[test]
fn random_scripts_end_in_every_way() {
    let mut rng = Rng::new(5);
    let mut ways = [0; 6];
    for _ in 0..600 {
        let call = script_call(&mut rng);
        let (mut journal, mut answers) = (vec![0x55; call.journal], vec![0x55; call.answers]);
        let mut workspace = vec![0x55; call.workspace];
        let mut player = Player::new(call.program, call.workspace);
        let ended = player.replay(&call.script, &mut workspace, &mut journal, &mut answers);
        readers_are_told(&player, &journal);
        ways[match ended {
            Ended::Played(_) => 0,
            Ended::Malformed(_) => 1,
            Ended::TooWide(_) => 2,
            Ended::ShortAnswers => 3,
            Ended::Unopened(_) => 4,
            Ended::Cut(_) => 5,
        }] += 1;
    }
    assert!(ways.iter().all(|&count| count >= 5), "{ways:?}");
}
