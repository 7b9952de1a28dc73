//! Journals in files: cut off or failing at each call on files, killed at any time, with several writers at once. The file always holds the old state
//! or the new, whole, and an answer is given only with the new one.

use std::fs;
use std::os::unix::fs::{symlink, MetadataExt, PermissionsExt};
use std::path::{Path, PathBuf};
use std::process::{Command, Stdio};
use std::time::{Duration, Instant};
use tulakkez::engine::{nurse, workshop};
use tulakkez::journal::{conversions, Contents};
use tulakkez_tests::command::{program, root, tulakkez, Ran, Scratch};

const TEXT: &str = "type Nat = Zero | Succ Nat\nfun plus (k : Nat) (n : Nat) : Nat =\n  case n of Zero => k | Succ m => Succ (plus k m)\n";

/// Numbers of errors: no such process, input or output, no permission, no room, read-only.
const ERRORS: [&str; 5] = ["3", "5", "13", "28", "30"];

/// No change makes more calls on files.
const MOST_CALLS: usize = 23;

/// A process that waits for a lock of its own would never end. What it tells is short, so that it does not wait for its reader.
const LONGEST_RUN: Duration = Duration::from_secs(20);

fn library() -> PathBuf {
    root().join("tests/tulakkez/cut/target/release/libcut.so")
}

fn ready(name: &str) -> Scratch {
    let scratch = Scratch::new(name);
    scratch.file("p.fun", TEXT);
    scratch
}

/// The journal's bytes, if the file is there. It is whole, or the test fails.
fn journal(folder: &Path) -> Option<Vec<u8>> {
    let bytes = fs::read(folder.join("j")).ok()?;
    Some(Contents::read(&bytes).expect("a whole file").journal)
}

/// The numbers that were added by the conversions that stand.
fn added(folder: &Path) -> Option<Vec<usize>> {
    let standing = conversions(&workshop(&journal(folder)?).expect("a whole journal"));
    Some(standing.iter().map(|conversion| (conversion.ancillae.len() - 3) / 2).collect())
}

fn preloaded(folder: &Path, words: &[&str], variables: &[(&str, &str)]) -> Ran {
    let mut command = Command::new(program());
    command.args(words).current_dir(folder).env("LD_PRELOAD", library()).envs(variables.iter().copied());
    let mut child = command.stdout(Stdio::piped()).stderr(Stdio::piped()).spawn().expect("the program runs");
    let begun = Instant::now();
    while child.try_wait().expect("its state").is_none() {
        if begun.elapsed() > LONGEST_RUN {
            let _ = child.kill();
            panic!("{words:?} with {variables:?} does not end");
        }
        std::thread::sleep(Duration::from_micros(200));
    }
    child.wait_with_output().expect("its end").into()
}

/// One of the three calls that change a journal, from a known state to a known state.
struct Change {
    words: &'static [&'static str],
    before: Option<Vec<usize>>,
    after: Vec<usize>,
}

fn changes() -> [Change; 3] {
    [
        Change { words: &["open", "j", "p.fun", "3"], before: None, after: vec![] },
        Change { words: &["convert", "j", "plus", "2"], before: Some(vec![1]), after: vec![1, 2] },
        Change { words: &["rollback", "j"], before: Some(vec![1, 2]), after: vec![1] },
    ]
}

/// Puts the folder into the state before a change.
fn prepare(folder: &Path, before: &Option<Vec<usize>>) {
    for entry in fs::read_dir(folder).expect("a folder").flatten() {
        if entry.file_name() != "p.fun" {
            fs::remove_file(entry.path()).expect("removed");
        }
    }
    let Some(before) = before else { return };
    assert_eq!(tulakkez(folder, &["open", "j", "p.fun", "3"]).status, 0);
    for number in before {
        assert_eq!(tulakkez(folder, &["convert", "j", "plus", &number.to_string()]).status, 0);
    }
}

/// Old or new, new if it was told so, and the next call goes on from there and takes away what was left.
fn hold(folder: &Path, change: &Change, ran: &Ran, told: bool, what: &str) -> bool {
    let state = added(folder);
    let new = state.as_ref() == Some(&change.after);
    assert!(new || state == change.before, "{what}: {state:?}");
    assert!(new || !told, "{what}: an answer without a change: {} {}", ran.out, ran.err);
    if !new {
        assert_eq!(tulakkez(folder, change.words).status, 0, "{what}: the call again");
        assert_eq!(added(folder), Some(change.after.clone()), "{what}");
    }
    assert_eq!(tulakkez(folder, &["convert", "j", "plus", "0"]).status, 0, "{what}: the next call");
    let left: Vec<_> = fs::read_dir(folder).expect("a folder").flatten().map(|entry| entry.file_name()).collect();
    assert_eq!(left.len(), 2, "{what}: {left:?}");
    new
}

#[test]
fn a_change_cut_off_at_any_call_leaves_the_old_state_or_the_new() {
    let scratch = ready("cut");
    let folder = &scratch.0;
    let mut runs = 0;
    for change in changes() {
        let (mut old, mut new) = (0, 0);
        for at in 1.. {
            prepare(folder, &change.before);
            let ran = preloaded(folder, change.words, &[("CUT_AT", &at.to_string())]);
            let what = format!("{:?} cut off at call {at}", change.words);
            let whole_answer = ran.out.ends_with("steps\n") || ran.out.ends_with("opened\n");
            if hold(folder, &change, &ran, whole_answer, &what) {
                new += 1;
            } else {
                old += 1;
            }
            runs += 1;
            if ran.status == 0 {
                break;
            }
        }
        assert!(old >= 4 && new >= 3 && old + new <= MOST_CALLS, "{:?}: {old} old, {new} new", change.words);
    }
    println!("{runs} runs");
}

#[test]
fn a_change_whose_call_fails_leaves_the_old_state_or_the_new_and_says_which() {
    let scratch = ready("fail");
    let folder = &scratch.0;
    let mut runs = 0;
    for change in changes() {
        for error in ERRORS {
            for at in 1..=MOST_CALLS {
                prepare(folder, &change.before);
                let ran = preloaded(folder, change.words, &[("FAIL_AT", &at.to_string()), ("FAIL_WITH", error)]);
                let what = format!("{:?}, call {at} fails with {error}: {}", change.words, ran.err);
                let state = added(folder);
                // 2 says that nothing was changed, 0 and 3 that the change was made.
                match ran.status {
                    2 => assert_eq!(state, change.before, "{what}"),
                    0 | 3 => assert_eq!(state, Some(change.after.clone()), "{what}"),
                    status => panic!("{what}: status {status}"),
                }
                assert!(ran.status == 0 || !ran.err.is_empty(), "{what}");
                hold(folder, &change, &ran, ran.status == 0, &what);
                runs += 1;
            }
        }
    }
    println!("{runs} runs");
    assert!(runs >= 300);
}

/// Bytes of files, where they are there.
type Bytes = Vec<Option<Vec<u8>>>;

/// A call whose answer is files.
struct Writing {
    words: &'static [&'static str],
    files: &'static [&'static str],
    /// The call that makes what is replaced. Where there is none, nothing is.
    before: Option<&'static [&'static str]>,
}

const INPUTS: [&str; 3] = ["p.fun", "q.fun", "j"];

fn writings() -> [Writing; 4] {
    let build = Writing { words: &["build", "p.fun"], files: &["p.cf", "p.cf.map"], before: None };
    let export = Writing { words: &["export", "j", "bare"], files: &["bare"], before: None };
    [
        Writing { before: Some(&["build", "q.fun", "-o", "p.cf"]), ..build },
        Writing {
            words: &["export", "j", "bare", "--force"],
            before: Some(&["build", "q.fun", "-o", "bare"]),
            ..export
        },
        build,
        export,
    ]
}

impl Writing {
    /// The bytes before and after.
    fn states(&self, folder: &Path) -> (Bytes, Bytes) {
        self.put(folder, &vec![None; self.files.len()]);
        if let Some(words) = self.before {
            assert_eq!(tulakkez(folder, words).status, 0);
        }
        let old = self.bytes(folder);
        self.again(folder, "the first time");
        let new = self.bytes(folder);
        assert!(old.iter().zip(&new).all(|(old, new)| old != new && new.is_some()));
        (old, new)
    }

    fn bytes(&self, folder: &Path) -> Bytes {
        self.files.iter().map(|name| fs::read(folder.join(name)).ok()).collect()
    }

    /// Puts the folder into a state.
    fn put(&self, folder: &Path, state: &Bytes) {
        for entry in fs::read_dir(folder).expect("a folder").flatten() {
            if !INPUTS.iter().any(|input| entry.file_name() == *input) {
                fs::remove_file(entry.path()).expect("removed");
            }
        }
        for (name, bytes) in self.files.iter().zip(state) {
            bytes.iter().for_each(|bytes| fs::write(folder.join(name), bytes).expect("written"));
        }
    }

    fn again(&self, folder: &Path, what: &str) {
        let ran = tulakkez(folder, &[self.words, &["--force"]].concat());
        assert_eq!(ran.status, 0, "{what}: {}", ran.err);
    }

    /// How many files are there that are neither read nor written.
    fn strays(&self, folder: &Path) -> usize {
        let names = fs::read_dir(folder).expect("a folder").flatten().map(|entry| entry.file_name());
        names.filter(|name| !INPUTS.iter().chain(self.files).any(|known| name == known)).count()
    }

    /// Each file is whole, old or new, and none is new behind one that is old.
    fn hold(&self, state: &Bytes, old: &Bytes, new: &Bytes, what: &str) {
        let written = state.iter().zip(new).take_while(|(state, new)| state == new).count();
        assert!(state[written..] == old[written..], "{what}: {written} written");
    }
}

/// A folder with all inputs.
fn ready_to_write(name: &str) -> Scratch {
    let scratch = ready(name);
    scratch.file("q.fun", &TEXT.replace("Zero => k", "Zero => Succ k"));
    assert_eq!(tulakkez(&scratch.0, &["open", "j", "p.fun", "3"]).status, 0);
    scratch
}

/// How many calls on files are made: each is cut off, until none is.
fn cut_at_each_call(writing: &Writing, folder: &Path) -> usize {
    let (old, new) = writing.states(folder);
    for at in 1.. {
        writing.put(folder, &old);
        let ran = preloaded(folder, writing.words, &[("CUT_AT", &at.to_string())]);
        let what = format!("{:?} cut off at call {at}", writing.words);
        let state = writing.bytes(folder);
        writing.hold(&state, &old, &new, &what);
        if ran.status == 0 {
            assert!(state == new && writing.strays(folder) == 0, "{what}");
            return at - 1;
        }
        // A file that is made takes nothing away; one that is replaced does.
        writing.again(folder, &what);
        writing.again(folder, &what);
        assert!(writing.bytes(folder) == new && writing.strays(folder) == 0, "{what}");
    }
    unreachable!("a run ends")
}

#[test]
fn files_of_build_and_export_are_whole_where_a_run_is_cut_off() {
    let scratch = ready_to_write("cutbuild");
    for writing in writings() {
        let calls = cut_at_each_call(&writing, &scratch.0);
        println!("{:?}: {calls} calls", writing.words);
        assert!(calls >= 10 * writing.files.len(), "{:?}: {calls} calls", writing.words);
    }
}

/// The file on its way of one that is made has two names for a moment. Only where the call fails that takes the first one away does it stay.
#[test]
fn files_of_build_and_export_are_whole_where_a_call_fails() {
    let scratch = ready_to_write("failbuild");
    let folder = &scratch.0;
    for writing in writings() {
        let calls = cut_at_each_call(&writing, folder);
        let (old, new) = writing.states(folder);
        for error in ERRORS {
            let mut strays = 0;
            for at in 1..=calls {
                writing.put(folder, &old);
                let ran = preloaded(folder, writing.words, &[("FAIL_AT", &at.to_string()), ("FAIL_WITH", error)]);
                let what = format!("{:?}, call {at} fails with {error}: {}", writing.words, ran.err);
                let state = writing.bytes(folder);
                writing.hold(&state, &old, &new, &what);
                match ran.status {
                    0 => assert!(state == new, "{what}"),
                    2 => assert!(state == old && !ran.err.is_empty(), "{what}"),
                    3 => assert!(!ran.err.is_empty(), "{what}"),
                    status => panic!("{what}: status {status}"),
                }
                let stray = writing.strays(folder);
                assert!(stray == 0 || ran.status == 0, "{what}");
                strays += stray;
                writing.again(folder, &what);
                writing.again(folder, &what);
                assert!(writing.bytes(folder) == new && writing.strays(folder) == 0, "{what}");
            }
            let made = if writing.before.is_none() { writing.files.len() } else { 0 };
            assert_eq!(strays, made, "{:?}, {error}", writing.words);
        }
    }
}

#[test]
fn a_change_killed_at_any_time_leaves_the_old_state_or_the_new() {
    let scratch = ready("kill");
    let folder = &scratch.0;
    let (mut old, mut new) = (0, 0);
    for round in 0..300_u64 {
        let change = &changes()[round as usize % 3];
        prepare(folder, &change.before);
        let mut child = Command::new(program())
            .args(change.words)
            .current_dir(folder)
            .stdout(Stdio::piped())
            .stderr(Stdio::null())
            .spawn()
            .expect("the program runs");
        std::thread::sleep(Duration::from_micros(round * 7919 % 6_000));
        let _ = child.kill();
        let ran: Ran = child.wait_with_output().expect("its end").into();
        let whole_answer = ran.out.ends_with("steps\n") || ran.out.ends_with("opened\n");
        match hold(folder, change, &ran, whole_answer, &format!("killed in round {round}")) {
            true => new += 1,
            false => old += 1,
        }
    }
    println!("{old} old, {new} new");
}

/// So many writers at once, each with a conversion of its own: those that were told so stand, each once.
fn writers(count: usize, rounds: usize) {
    let scratch = ready(&format!("writers{count}"));
    let folder = &scratch.0;
    for round in 0..rounds {
        let opened = tulakkez(folder, &["open", "j", "p.fun", "3", "--force"]);
        assert_eq!(opened.status, 0, "{}", opened.err);
        let spawn = |number: usize| {
            Command::new(program())
                .args(["convert", "j", "plus", &number.to_string()])
                .current_dir(folder)
                .stdout(Stdio::null())
                .stderr(Stdio::null())
                .spawn()
                .expect("the program runs")
        };
        let children: Vec<_> = (0..count).map(spawn).collect();
        for mut child in children {
            assert!(child.wait().expect("its end").success(), "round {round}");
        }
        let mut standing = added(folder).expect("a journal");
        standing.sort_unstable();
        assert_eq!(standing, (0..count).collect::<Vec<_>>(), "round {round}");
    }
}

#[test]
fn two_writers_lose_nothing() {
    writers(2, 1_000);
}

#[test]
fn four_writers_lose_nothing() {
    writers(4, 1_000);
}

#[test]
fn of_several_that_open_one_does() {
    let scratch = ready("openers");
    let folder = &scratch.0;
    for round in 0..200 {
        prepare(folder, &None);
        let spawn = |record: usize| {
            let words = ["open", "j", "p.fun", &record.to_string()];
            let mut command = Command::new(program());
            command.args(words).current_dir(folder).stdout(Stdio::null()).stderr(Stdio::null());
            command.spawn().expect("the program runs")
        };
        let children: Vec<_> = (0..4).map(spawn).collect();
        let statuses = children.into_iter().map(|mut child| child.wait().expect("its end").code());
        let opened: Vec<usize> =
            statuses.enumerate().filter(|(_, code)| *code == Some(0)).map(|(at, _)| at).collect();
        assert_eq!(opened.len(), 1, "round {round}");
        let held = nurse(&journal(folder).expect("a journal")).expect("a whole journal").held;
        assert_eq!((held.len() - 3) / 2, opened[0], "round {round}: the one that was told so");
        assert_eq!(fs::read_dir(folder).expect("a folder").count(), 2, "round {round}");
    }
}

#[test]
fn a_writer_that_does_not_wait_says_so() {
    let scratch = ready("busy");
    let folder = &scratch.0;
    prepare(folder, &Some(vec![]));
    let file = fs::File::open(folder.join("j")).expect("the journal");
    file.lock().expect("a lock");
    let ran = tulakkez(folder, &["convert", "j", "plus", "1", "--no-wait"]);
    assert_eq!((ran.status, ran.err.contains("another writer has it")), (2, true), "{}", ran.err);
    let waiting = Command::new(program())
        .args(["convert", "j", "plus", "1"])
        .current_dir(folder)
        .stderr(Stdio::piped())
        .stdout(Stdio::piped())
        .spawn()
        .expect("the program runs");
    std::thread::sleep(Duration::from_millis(100));
    assert_eq!(added(folder), Some(vec![]));
    file.unlock().expect("unlocked");
    let ran: Ran = waiting.wait_with_output().expect("its end").into();
    assert_eq!((ran.status, ran.err.contains("waiting")), (0, true));
    assert_eq!(added(folder), Some(vec![1]));
}

#[test]
fn mode_is_kept_and_links_are_followed() {
    let scratch = ready("links");
    let folder = &scratch.0;
    prepare(folder, &Some(vec![]));
    fs::set_permissions(folder.join("j"), fs::Permissions::from_mode(0o640)).expect("a mode");
    fs::create_dir(folder.join("sub")).expect("a folder");
    symlink("../j", folder.join("sub/link")).expect("a link");
    assert_eq!(tulakkez(folder, &["convert", "sub/link", "plus", "1"]).status, 0);
    assert_eq!(added(folder), Some(vec![1]));
    assert!(fs::symlink_metadata(folder.join("sub/link")).expect("the link").is_symlink());
    assert_eq!(fs::metadata(folder.join("j")).expect("the journal").mode() & 0o7777, 0o640);
}

/// Only who may give files away can try this.
#[test]
fn the_owner_is_kept() {
    let scratch = ready("owner");
    let folder = &scratch.0;
    prepare(folder, &Some(vec![]));
    let (owner, group) = (12_345, 23_456);
    if std::os::unix::fs::chown(folder.join("j"), Some(owner), Some(group)).is_err() {
        println!("skipped: this user may not give files away");
        return;
    }
    assert_eq!(tulakkez(folder, &["convert", "j", "plus", "1"]).status, 0);
    let metadata = fs::metadata(folder.join("j")).expect("the journal");
    assert_eq!((metadata.uid(), metadata.gid()), (owner, group));
}

/// What another file's writer has on its way is left alone, even if its name begins alike.
#[test]
fn only_what_was_left_of_this_file_is_taken_away() {
    let scratch = ready("left");
    let folder = &scratch.0;
    prepare(folder, &Some(vec![]));
    let (own, other) = (".j.123-456-0.tulakkez-new", ".j.1.123-456-0.tulakkez-new");
    scratch.file(own, "");
    scratch.file(other, "");
    assert_eq!(tulakkez(folder, &["convert", "j", "plus", "1"]).status, 0);
    assert!(!folder.join(own).exists() && folder.join(other).exists());
}

#[test]
fn a_journal_file_stands_for_its_program() {
    let scratch = ready("stands");
    let folder = &scratch.0;
    prepare(folder, &Some(vec![1]));
    let ran = tulakkez(folder, &["run", "j", "plus", "2", "3"]);
    assert_eq!((ran.status, ran.out.as_str()), (0, "5\n28 steps\n"), "{}", ran.err);
}

#[test]
fn nothing_else_is_overwritten() {
    let scratch = ready("over");
    let folder = &scratch.0;
    scratch.file("other", "something else");
    for name in ["p.fun", "other", "/dev/null", "."] {
        let ran = tulakkez(folder, &["open", name, "p.fun", "3"]);
        assert_eq!(ran.status, 2, "{name}: {}", ran.err);
    }
    assert_eq!(fs::read_to_string(folder.join("other")).expect("the file"), "something else");
    for name in ["/dev/null", "."] {
        let ran = tulakkez(folder, &["open", name, "p.fun", "3", "--force"]);
        assert_eq!(ran.status, 2, "{name}: {}", ran.err);
    }
    prepare(folder, &Some(vec![1]));
    let ran = tulakkez(folder, &["open", "j", "p.fun", "3"]);
    assert_eq!((ran.status, ran.err.contains("1 standing conversion")), (2, true), "{}", ran.err);
    assert_eq!(added(folder), Some(vec![1]));
    for words in [["convert", "p.fun", "plus", "1"], ["convert", "none", "plus", "1"]] {
        assert_eq!(tulakkez(folder, &words).status, 2);
    }
}

#[test]
fn a_damaged_file_is_told_and_left_alone() {
    let scratch = ready("damaged");
    let folder = &scratch.0;
    prepare(folder, &Some(vec![1]));
    let path = folder.join("j");
    let whole = fs::read(&path).expect("the journal");
    for at in [8, 20, 30, whole.len() / 2, whole.len() - 1] {
        let mut damaged = whole.clone();
        damaged[at] ^= 0x10;
        fs::write(&path, &damaged).expect("written");
        for words in [&["convert", "j", "plus", "1"][..], &["rollback", "j"], &["journal", "j"], &["export", "j"]]
        {
            let ran = tulakkez(folder, words);
            assert_eq!((ran.status, ran.err.contains("damaged")), (2, true), "byte {at} {words:?}: {}", ran.err);
            assert_eq!(fs::read(&path).expect("the journal"), damaged);
        }
    }
    fs::write(&path, &whole[..0]).expect("written");
    let ran = tulakkez(folder, &["rollback", "j"]);
    assert_eq!((ran.status, ran.err.contains("no journal file")), (2, true), "{}", ran.err);
}

#[test]
fn an_answer_that_cannot_be_written_is_status_3() {
    let scratch = ready("full");
    let folder = &scratch.0;
    prepare(folder, &Some(vec![]));
    let full = fs::OpenOptions::new().write(true).open("/dev/full").expect("the full device");
    let mut command = Command::new(program());
    command.args(["convert", "j", "plus", "1"]).current_dir(folder).stdout(full).stderr(Stdio::null());
    assert_eq!(command.status().expect("the program runs").code(), Some(3));
    assert_eq!(added(folder), Some(vec![1]));
}

#[test]
fn bare_journals_go_out_and_come_back() {
    let scratch = ready("bare");
    let folder = &scratch.0;
    prepare(folder, &Some(vec![2, 3]));
    assert_eq!(tulakkez(folder, &["export", "j", "bare"]).status, 0);
    let bare = fs::read(folder.join("bare")).expect("the bytes");
    assert_eq!(nurse(&bare).expect("a journal").standing, 2);
    assert_eq!(tulakkez(folder, &["export", "j", "bare"]).status, 2);
    assert_eq!(tulakkez(folder, &["import", "k", "p.fun", "bare"]).status, 0);
    assert_eq!(fs::read(folder.join("k")).expect("k"), fs::read(folder.join("j")).expect("j"));
    scratch.file("q.fun", "type Nat = Zero | Succ Nat\nfun skip (k : Nat) (n : Nat) : Nat = case n of Zero => 0 | Succ m => Succ (skip k m)\n");
    let ran = tulakkez(folder, &["import", "l", "q.fun", "bare"]);
    assert_eq!((ran.status, ran.err.contains("bare: error: refused ")), (1, true), "{}", ran.err);
    assert!(
        ran.err.contains("help: another program wrote this journal, or its bytes were changed\n"),
        "{}",
        ran.err
    );
    assert!(!folder.join("l").exists());
    scratch.file("junk", "something else");
    let ran = tulakkez(folder, &["import", "l", "p.fun", "junk"]);
    assert_eq!((ran.status, ran.err.contains("junk: error: refused 18: ")), (1, true), "{}", ran.err);
    assert!(!folder.join("l").exists());
}
