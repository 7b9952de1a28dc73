//! Usage: exit statuses, help, files that are not there, answers for scripts.

use std::fs;
use std::io;
use std::os::unix::fs::symlink;
use std::path::Path;
use tulakkez_tests::command::{program, tulakkez, Ran, Scratch};

const TEXT: &str = "type Nat = Zero | Succ Nat\nfun plus (k : Nat) (n : Nat) : Nat =\n  case n of Zero => k | Succ m => Succ (plus k m)\n";
const COMMANDS: [&str; 11] =
    ["build", "check", "show", "run", "back", "open", "convert", "rollback", "journal", "export", "import"];

fn ready(name: &str) -> Scratch {
    let scratch = Scratch::new(name);
    scratch.file("p.fun", TEXT);
    scratch
}

#[test]
fn every_command_has_help() {
    let scratch = ready("help");
    let all = tulakkez(&scratch.0, &["--help"]);
    assert_eq!(all.status, 0);
    for command in COMMANDS {
        assert!(all.out.contains(&format!("tulakkez {command} ")), "{command}");
        let one = tulakkez(&scratch.0, &[command, "--help"]);
        assert_eq!(one.status, 0);
        assert!(one.out.starts_with(&format!("tulakkez {command} ")), "{}", one.out);
        assert!(one.out.contains("--json") && one.out.contains("Exit status"), "{}", one.out);
    }
    assert!(tulakkez(&scratch.0, &["--version"]).out.starts_with("tulakkez 0."));
}

#[test]
fn wrong_usage_is_status_2_and_says_what_to_do() {
    let scratch = ready("usage");
    for words in [
        &[][..],
        &["chek", "p.fun"],
        &["check"],
        &["check", "p.fun", "more"],
        &["check", "none.fun"],
        &["check", "."],
        &["run", "p.fun", "plus"],
        &["run", "p.fun", "plus", "1", "2", "--fuel", "x"],
        &["run", "p.fun", "plus", "1", "2", "--force"],
        &["run", "p.fun", "minus", "1", "2"],
        &["run", "p.fun", "plus", "1", "(2"],
        &["run", "p.fun", "plus", "1", "0x0"],
        &["run", "p.fun", "plus", "1", "n"],
        &["open", "j", "p.fun"],
        &["open", "none/j", "p.fun", "3"],
        &["convert", "none", "plus", "1"],
    ] {
        let ran = tulakkez(&scratch.0, words);
        assert_eq!((ran.status, ran.out.as_str()), (2, ""), "{words:?}: {}", ran.err);
        assert!(!ran.err.is_empty(), "{words:?}");
    }
    assert!(tulakkez(&scratch.0, &["chek", "p.fun"]).err.contains("did you mean check?"));
}

#[test]
fn functions_go_by_name_or_number_and_programs_by_text_or_bytes() {
    let scratch = ready("both");
    assert_eq!(tulakkez(&scratch.0, &["build", "p.fun"]).status, 0);
    assert_eq!(tulakkez(&scratch.0, &["build", "p.fun"]).status, 0, "a program of its own is replaced");
    for program in ["p.fun", "p.cf"] {
        for function in if program == "p.fun" { ["plus", "0"] } else { ["f0", "0"] } {
            let ran = tulakkez(&scratch.0, &["run", program, function, "2", "3"]);
            assert_eq!((ran.status, ran.out.as_str()), (0, "5\n28 steps\n"), "{program} {function}: {}", ran.err);
        }
    }
    let ran = tulakkez(&scratch.0, &["run", "p.fun", "7", "2", "3"]);
    assert_eq!((ran.status, ran.err.contains("refused 9: ")), (1, true), "{}", ran.err);
    let ran = tulakkez(&scratch.0, &["back", "p.cf", "0", "2", "1"]);
    assert_eq!((ran.status, ran.err.contains("p.cf: byte ")), (1, true), "{}", ran.err);
}

#[test]
fn what_build_writes() {
    let scratch = ready("build");
    let ran = tulakkez(&scratch.0, &["build", "p.fun", "-o", "out.cf"]);
    assert_eq!(ran.status, 0, "{}", ran.err);
    let map = std::fs::read_to_string(scratch.0.join("out.cf.map")).expect("the map");
    let bytes = std::fs::read(scratch.0.join("out.cf")).expect("the bytes");
    assert!(map.starts_with("offset entry number line:column\n0 type 0 2:5\n"), "{map}");
    assert!(map.lines().last().expect("a line").ends_with("function 0 2:5 plus"), "{map}");
    for line in map.lines().skip(1) {
        let offset: usize = line.split(' ').next().and_then(|word| word.parse().ok()).expect("an offset");
        assert!((1..=3).contains(&bytes[offset]), "{line}");
    }
    assert_eq!(tulakkez(&scratch.0, &["build", "p.fun", "-o", "p.fun"]).status, 2, "a text is not overwritten");
    let shown = tulakkez(&scratch.0, &["show", "out.cf", "--offsets"]);
    scratch.file("again.fun", &shown.out);
    assert_eq!(tulakkez(&scratch.0, &["build", "again.fun"]).status, 0);
    assert_eq!(std::fs::read(scratch.0.join("again.cf")).expect("the bytes"), bytes);
}

/// Runs that are refused with a status, what is told, and all files of the folder as they were.
fn unchanged(scratch: &Scratch, words: &[&str], status: i32, told: &str) {
    let before = scratch.files();
    let ran = tulakkez(&scratch.0, words);
    assert_eq!((ran.status, ran.out.as_str()), (status, ""), "{words:?}: {}", ran.err);
    assert!(ran.err.contains(told), "{words:?}: {}", ran.err);
    assert_eq!(scratch.files(), before, "{words:?}");
}

#[test]
fn both_files_of_build_are_tested_before_either_is_written() {
    let scratch = ready("either");
    assert_eq!(tulakkez(&scratch.0, &["build", "p.fun"]).status, 0);
    scratch.file("q.fun", &TEXT.replace("Zero => k", "Zero => Succ k"));
    scratch.file("p.cf.map", "something else");
    let words = ["build", "q.fun", "-o", "p.cf"];
    unchanged(
        &scratch,
        &words,
        2,
        "p.cf.map: error: a file of another kind is there\n  help: --force replaces it",
    );
    scratch.file("new.map", "something else");
    unchanged(&scratch, &["build", "q.fun", "-o", "new"], 2, "new.map: error: a file of another kind is there");
    fs::create_dir(scratch.0.join("other.map")).expect("a folder");
    unchanged(
        &scratch,
        &["build", "q.fun", "-o", "other", "--force"],
        3,
        "other.map: error: it is no regular file",
    );
    assert_eq!(tulakkez(&scratch.0, &[&words[..], &["--force"]].concat()).status, 0);
    let ran = tulakkez(&scratch.0, &["run", "p.cf", "0", "2", "3"]);
    assert!(ran.out.starts_with("6\n"), "the program is the new one: {}", ran.out);
}

#[test]
fn the_file_that_is_read_is_never_replaced() {
    let scratch = ready("itself");
    symlink("p.fun", scratch.0.join("link")).expect("a link");
    fs::hard_link(scratch.0.join("p.fun"), scratch.0.join("hard")).expect("a second name");
    scratch.file("text.map", TEXT);
    assert_eq!(tulakkez(&scratch.0, &["open", "j", "p.fun", "3"]).status, 0);
    for words in [
        &["build", "p.fun", "-o", "p.fun"][..],
        &["build", "p.fun", "-o", "./p.fun"],
        &["build", "p.fun", "-o", "link"],
        &["build", "p.fun", "-o", "hard"],
        &["build", "link", "-o", "p.fun"],
        &["build", "text.map", "-o", "text"],
        &["export", "j", "j"],
    ] {
        unchanged(&scratch, words, 2, "this is the file that is read");
        unchanged(&scratch, &[words, &["--force"]].concat(), 2, "this is the file that is read");
    }
}

#[test]
fn a_journal_file_replaces_no_text_and_no_bytes_that_it_is_made_from() {
    let scratch = ready("sources");
    symlink("p.fun", scratch.0.join("link")).expect("a link");
    fs::hard_link(scratch.0.join("p.fun"), scratch.0.join("hard")).expect("a second name");
    for words in [&["build", "p.fun"][..], &["open", "j", "p.fun", "3"], &["export", "j", "bare"]] {
        assert_eq!(tulakkez(&scratch.0, words).status, 0);
    }
    for words in [
        &["open", "p.fun", "p.fun", "3"][..],
        &["open", "link", "p.fun", "3"],
        &["open", "hard", "p.fun", "3"],
        &["open", "p.fun", "link", "3"],
        &["open", "p.cf", "p.cf", "3"],
        &["import", "p.fun", "p.fun", "bare"],
        &["import", "hard", "p.fun", "bare"],
        &["import", "bare", "p.fun", "bare"],
        &["import", "./bare", "j", "bare"],
    ] {
        unchanged(&scratch, words, 2, "this is the file that is read");
        unchanged(&scratch, &[words, &["--force"]].concat(), 2, "this is the file that is read");
    }
    unchanged(&scratch, &["open", "j", "j", "4"], 2, "--force replaces it");
    for words in [&["open", "j", "j", "4", "--force"], &["open", "bare", "p.fun", "3", "--force"]] {
        assert_eq!(tulakkez(&scratch.0, words).status, 0, "{words:?}");
    }
    assert!(tulakkez(&scratch.0, &["journal", "j"]).out.ends_with("held 4\n"));
}

#[test]
fn the_map_is_not_written_onto_the_program() {
    let scratch = ready("onto");
    assert_eq!(tulakkez(&scratch.0, &["build", "p.fun"]).status, 0);
    let (program, map) = (scratch.0.join("p.cf"), scratch.0.join("p.cf.map"));
    let onto: [fn(&Path, &Path) -> io::Result<()>; 2] =
        [|from, to| fs::hard_link(from, to), |from, to| symlink(from, to)];
    for name in onto {
        fs::remove_file(&map).expect("removed");
        name(&program, &map).expect("a second name");
        for words in [&["build", "p.fun"][..], &["build", "p.fun", "--force"]] {
            unchanged(&scratch, words, 2, "p.cf.map: error: this is the same file as p.cf\n");
        }
    }
}

#[test]
fn only_a_program_or_a_map_is_replaced_without_force() {
    let scratch = ready("kinds");
    for (name, text) in
        [("empty", ""), ("short", "\u{1}"), ("like", "\u{1}\0\u{1}\0?"), ("words", "something else")]
    {
        scratch.file(name, text);
        let words = ["build", "p.fun", "-o", name];
        unchanged(&scratch, &words, 2, "a file of another kind is there\n  help: --force replaces it");
        assert_eq!(tulakkez(&scratch.0, &[&words[..], &["--force"]].concat()).status, 0, "{name}");
        assert_eq!(tulakkez(&scratch.0, &words).status, 0, "{name}: a program is there now");
    }
}

#[test]
fn a_journal_in_the_way_is_told_as_one() {
    let scratch = ready("way");
    assert_eq!(tulakkez(&scratch.0, &["open", "j", "p.fun", "3"]).status, 0);
    assert_eq!(tulakkez(&scratch.0, &["open", "k", "p.fun", "3"]).status, 0);
    for (added, standing) in
        ["no standing conversion", "1 standing conversion", "2 standing conversions"].iter().enumerate()
    {
        let told = format!("j: error: a journal with {standing} is there\n  help: --force replaces it");
        for words in [&["build", "p.fun", "-o", "j"][..], &["export", "k", "j"], &["open", "j", "p.fun", "3"]] {
            unchanged(&scratch, words, 2, &told);
        }
        assert_eq!(tulakkez(&scratch.0, &["convert", "j", "plus", &added.to_string()]).status, 0);
    }
    let whole = fs::read(scratch.0.join("j")).expect("the journal");
    fs::write(scratch.0.join("j"), &whole[..whole.len() - 1]).expect("written");
    let told = "j: error: a journal file that cannot be read is there\n  help: --force replaces it";
    unchanged(&scratch, &["build", "p.fun", "-o", "j"], 2, told);
    assert_eq!(tulakkez(&scratch.0, &["build", "p.fun", "-o", "j", "--force"]).status, 0);
    assert_eq!(tulakkez(&scratch.0, &["run", "j", "0", "2", "3"]).out, "5\n28 steps\n");
}

/// Of build and export the file is the answer; a journal file that cannot be made leaves nothing done.
#[test]
fn a_file_that_the_system_does_not_let_be_written() {
    let scratch = ready("system");
    symlink("gone", scratch.0.join("dangling")).expect("a link");
    fs::create_dir(scratch.0.join("folder")).expect("a folder");
    assert_eq!(tulakkez(&scratch.0, &["open", "j", "p.fun", "3"]).status, 0);
    for (name, told) in [
        ("none/x", "No such file"),
        ("/dev/full", "it is no regular file"),
        ("folder", "it is no regular file"),
        ("dangling", "it is a symbolic link to a file that is not there"),
    ] {
        for (words, status) in [
            (&["build", "p.fun", "-o", name][..], 3),
            (&["export", "j", name], 3),
            (&["open", name, "p.fun", "3"], 2),
        ] {
            unchanged(&scratch, words, status, told);
            unchanged(&scratch, &[words, &["--force"]].concat(), status, told);
            assert!(!tulakkez(&scratch.0, words).err.contains("--force"), "{words:?}: force does not help");
        }
    }
}

#[test]
fn an_answer_to_a_closed_output_is_lost() {
    let scratch = ready("closed");
    assert_eq!(tulakkez(&scratch.0, &["open", "j", "p.fun", "3"]).status, 0);
    let mut shell = std::process::Command::new("sh");
    shell.args(["-c", "exec \"$0\" convert j plus 1 >&-"]).arg(program()).current_dir(&scratch.0);
    let ran: Ran = shell.output().expect("a shell").into();
    assert_eq!((ran.status, ran.out.as_str(), ran.err.as_str()), (0, "", ""));
    assert!(tulakkez(&scratch.0, &["journal", "j"]).out.starts_with("1 standing conversion, "));
}

#[test]
fn what_is_wrong_is_named() {
    let scratch = ready("named");
    scratch.file("one.fun", "type Nat = Zero | Succ Nat\nfun same (n : Nat) : Nat = n\n");
    scratch.file("two.fun", "type Nat = Zero | Succ Nat\nfun two (a : Nat) (b : Nat) (n : Nat) : Nat = n\n");
    scratch.file("mark.fun", &format!("\u{feff}{TEXT}"));
    assert_eq!(tulakkez(&scratch.0, &["open", "j", "p.fun", "3"]).status, 0);
    for (words, status, told) in [
        (&["run", "one.fun", "same", "1", "2"][..], 1, "same takes 1 value here, and 2 are given\n"),
        (&["run", "p.fun", "plus", "1"], 1, "plus takes 2 values here, and 1 is given\n"),
        (&["run", "one.fun", "1", "1"], 1, "one.fun has 1 function, 0\n"),
        (&["run", "p.fun", "plus", "1", "511"], 1, "note: value 2 has 1025 bytes\n"),
        (&["run", "p.fun", "plus", "600", "511"], 1, "note: value 1 has 1203 bytes\n"),
        (&["run", "two.fun", "two", "300", "300", "1"], 1, "note: the ancillae have 1206 bytes together\n"),
        (&["convert", "j", "plus", "511"], 1, "note: value 1 has 1025 bytes\n"),
        (&["open", "k", "p.fun", "511"], 1, "note: the record has 1025 bytes\n"),
        (
            &["open", "k", "p.fun", "3", "--length", "5"],
            1,
            "note: the record takes 12 bytes, and the length is 5\n",
        ),
        (&["open", "k", "p.fun", "3", "--length", "11"], 1, "k: error: refused 20: "),
        (&["check", "mark.fun"], 2, "mark.fun:1:1: error: a byte order mark has no meaning here\n"),
    ] {
        unchanged(&scratch, words, status, told);
    }
    assert_eq!(tulakkez(&scratch.0, &["open", "k", "p.fun", "3", "--length", "12"]).status, 0);
    assert!(tulakkez(&scratch.0, &["check", "one.fun"]).out.contains(" 1 function, "));
}

#[test]
fn an_answer_that_cannot_be_written_is_status_3() {
    let scratch = ready("out");
    let full = std::fs::OpenOptions::new().write(true).open("/dev/full").expect("the full device");
    let mut command = std::process::Command::new(tulakkez_tests::command::program());
    command.args(["run", "p.fun", "plus", "1", "2"]).current_dir(&scratch.0).stdout(full);
    assert_eq!(command.output().expect("the program runs").status.code(), Some(3));
}

/// One line, and its brackets are balanced outside of quotes.
#[test]
fn answers_for_scripts_are_one_line() {
    let scratch = ready("json");
    for (words, status) in [
        (&["check", "p.fun"][..], "accepted"),
        (&["run", "p.fun", "plus", "1", "2"], "accepted"),
        (&["back", "p.fun", "plus", "3", "2"], "refused"),
        (&["run", "p.fun", "plus", "1", "(2"], "error"),
        (&["open", "j", "p.fun", "3"], "accepted"),
        (&["convert", "j", "plus", "3"], "accepted"),
        (&["journal", "j"], "accepted"),
        (&["journal", "j", "--bedside"], "accepted"),
        (&["journal", "none", "--bedside"], "error"),
        (&["rollback", "j"], "accepted"),
        (&["rollback", "j"], "refused"),
        (&["rollback", "none"], "error"),
        (&["run", "p.fun"], "error"),
    ] {
        let words = [words, &["--json"]].concat();
        let ran = tulakkez(&scratch.0, &words);
        assert_eq!((ran.out.lines().count(), ran.err.as_str()), (1, ""), "{words:?}: {}", ran.out);
        assert!(ran.out.starts_with(&format!("{{\"status\":\"{status}\",")), "{words:?}: {}", ran.out);
        let expected = ["accepted", "refused", "error"].iter().position(|word| *word == status);
        assert_eq!(Some(ran.status as usize), expected, "{words:?}");
    }
}
