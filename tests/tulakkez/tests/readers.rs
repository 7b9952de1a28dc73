//! A journal file as it is read: at the desk with every conversion, at the bedside the record and the count alone. Which bytes are a journal,
//! and what stands in it, is held to the second evaluator.

use second::calls::Call;
use second::journal::Journal;
use second::make::forms::{any_journal, in_buffer, with_other_entries};
use second::make::Maker;
use second::readers::Reading;
use second::rng::Rng;
use std::fs;
use std::path::Path;
use std::process::{Child, Command, Stdio};
use tulakkez::command::answer::{Answer, Status};
use tulakkez::command::{run, Converter};
use tulakkez::engine::{self, LARGEST_FUEL};
use tulakkez::journal::Contents;
use tulakkez::text::Source;
use tulakkez::values::{self, hexadecimal};
use tulakkez_tests::command::{deep, program, tulakkez, Ran, Scratch};
use tulakkez_tests::random::{random_ancillae, random_text, random_value, Text};

const PUMP: &str = "type Nat  = Zero | Succ Nat
type Kind = Fill | Drain
type List = Nil | Cons (Kind, Nat) List
fun plus (k : Nat) (n : Nat) : Nat = case n of Zero => k | Succ m => Succ (plus k m)
fun calibrate (k : Nat) (l : List) : List =
  case l of Nil => Nil | Cons (kind, v) rest => Cons (kind, plus k v) (calibrate k rest)
fun log (s : (Kind, Nat)) (l : List) : List = Cons s l
";

/// Functions whose results are of different types, and yet of the same bytes.
const VALVES: &str = "type Nat   = Zero | Succ Nat
type Kind  = Fill | Drain
type Valve = Shut | Ajar
fun kind (b : 1 + 1) : Kind = case b of inl u => Fill | inr u => Drain
fun valve (b : 1 + 1) : Valve = case b of inl u => Shut | inr u => Ajar
fun turned (k : Nat) (b : 1 + 1) : Kind = case b of inl u => Drain | inr u => Fill
";

/// The ways in which a reading can be asked for.
const FORMS: [&[&str]; 4] = [&[], &["--hex"], &["--json"], &["--hex", "--json"]];

/// What is told of a journal that is malformed.
const MALFORMED: &str =
    "j: error: refused 18: the journal is malformed\n  help: call service; nothing was changed\n";

fn ready(name: &str) -> Scratch {
    let scratch = Scratch::new(name);
    scratch.file("pump.fun", PUMP);
    scratch.file("valves.fun", VALVES);
    scratch
}

/// Calls that are all accepted.
fn done(folder: &Path, calls: &[&[&str]]) {
    for words in calls {
        let ran = tulakkez(folder, words);
        assert_eq!(ran.status, 0, "{words:?}: {}", ran.err);
    }
}

/// What is printed of a journal, which is accepted.
fn printed(folder: &Path, journal: &str, options: &[&str]) -> String {
    let words = [&["journal", journal][..], options].concat();
    let ran = tulakkez(folder, &words);
    assert_eq!((ran.status, ran.err.as_str()), (0, ""), "{words:?}");
    ran.out
}

/// The same at the bedside.
fn seen(folder: &Path, journal: &str, options: &[&str]) -> String {
    printed(folder, journal, &[&["--bedside"], options].concat())
}

#[test]
fn at_the_bedside_the_record_is_told_and_how_many_conversions_stand() {
    let scratch = ready("bedside");
    let folder = &scratch.0;
    done(folder, &[&["open", "j", "pump.fun", "Cons (Fill, 1) Nil"]]);
    assert_eq!(seen(folder, "j", &[]), "record  Cons (Fill, 1) Nil\nno conversion stands\n");
    done(folder, &[&["convert", "j", "calibrate", "1"]]);
    assert_eq!(seen(folder, "j", &[]), "record  Cons (Fill, 2) Nil\n1 conversion stands\n");
    done(folder, &[&["convert", "j", "log", "(Drain, 0)"]]);
    let (record, hex) =
        ("Cons (Drain, 0) (Cons (Fill, 2) Nil)", "04020303020004010004020303010004020402040100040100");
    let before = scratch.files();
    for (options, expected) in FORMS.iter().zip([
        format!("record  {record}\n2 conversions stand\n"),
        format!("record  0x{hex}\n2 conversions stand\n"),
        format!("{{\"status\":\"accepted\",\"record\":\"{record}\",\"hex\":\"{hex}\",\"standing\":2}}\n"),
        format!("{{\"status\":\"accepted\",\"record\":\"0x{hex}\",\"hex\":\"{hex}\",\"standing\":2}}\n"),
    ]) {
        assert_eq!(seen(folder, "j", options), expected, "{options:?}");
    }
    assert_eq!(scratch.files(), before, "reading changes no file");
    done(folder, &[&["rollback", "j"]]);
    assert_eq!(seen(folder, "j", &[]), "record  Cons (Fill, 2) Nil\n1 conversion stands\n");
}

#[test]
fn at_the_bedside_nothing_of_an_entry_is_told() {
    let scratch = ready("nothing");
    let folder = &scratch.0;
    done(folder, &[&["open", "j", "pump.fun", "Cons (Fill, 7) Nil"], &["convert", "j", "calibrate", "2"]]);
    done(folder, &[&["convert", "j", "log", "(Drain, 3)"], &["rollback", "j"]]);
    for options in FORMS {
        let told = seen(folder, "j", options);
        for word in ["calibrate", "plus", "log", "step", "84", "ancilla", "byte", "67139", "conversions", "fields"]
        {
            assert!(!told.contains(word), "{word}: {told}");
        }
    }
}

/// Journals of one program that hold one record with one conversion standing, each by another way; the desk tells each apart.
fn alike(folder: &Path, ways: &[&[&[&str]]]) {
    for (number, way) in ways.iter().enumerate() {
        let name = format!("journal{number}");
        let named: Vec<Vec<&str>> =
            way.iter().map(|words| [&[words[0], name.as_str()], &words[1..]].concat()).collect();
        done(folder, &named.iter().map(Vec::as_slice).collect::<Vec<_>>());
    }
    let names: Vec<String> = (0..ways.len()).map(|number| format!("journal{number}")).collect();
    for options in FORMS {
        let first = seen(folder, &names[0], options);
        for (number, name) in names.iter().enumerate().skip(1) {
            assert_eq!(seen(folder, name, options), first, "{options:?} {:?}", ways[number]);
            let before = names[..number].iter().map(|before| printed(folder, before, options));
            let own = printed(folder, name, options);
            assert!(before.into_iter().all(|before| before != own), "{options:?} {:?}: {own}", ways[number]);
        }
    }
}

#[test]
fn equal_record_and_count_are_told_alike_at_the_bedside() {
    let scratch = ready("alike");
    alike(
        &scratch.0,
        &[
            &[&["open", "pump.fun", "Cons (Fill, 1) Nil"], &["convert", "calibrate", "2"]],
            &[&["open", "pump.fun", "Cons (Fill, 2) Nil"], &["convert", "calibrate", "1"]],
            &[&["open", "pump.fun", "Nil", "--length", "64"], &["convert", "log", "(Fill, 3)"]],
            &[&["open", "pump.fun", "Cons (Fill, 3) Nil"], &["convert", "calibrate", "0"]],
        ],
    );
}

/// The newest conversion gives the record a type; a nurse who was told it would know of the conversion.
#[test]
fn results_of_different_types_are_told_alike_at_the_bedside() {
    let scratch = ready("types");
    alike(
        &scratch.0,
        &[
            &[&["open", "valves.fun", "inl ()"], &["convert", "kind"]],
            &[&["open", "valves.fun", "inl ()"], &["convert", "valve"]],
            &[&["open", "valves.fun", "inr ()"], &["convert", "turned", "3"]],
        ],
    );
    let told = "record  can be read in more than one way:\n  as 1 + 1: inl ()\n  as Kind: Fill\n  as Valve: Shut\n  help: ask the workshop which one is meant\n1 conversion stands\n";
    assert_eq!(seen(&scratch.0, "journal1", &[]), told);
    assert_eq!(
        seen(&scratch.0, "journal1", &["--json"]),
        "{\"status\":\"accepted\",\"readings\":[{\"type\":\"1 + 1\",\"record\":\"inl ()\"},{\"type\":\"Kind\",\"record\":\"Fill\"},{\"type\":\"Valve\",\"record\":\"Shut\"}],\"hex\":\"0100\",\"standing\":1}\n"
    );
    assert_eq!(seen(&scratch.0, "journal1", &["--hex"]), "record  0x0100\n1 conversion stands\n");
}

/// In words that several types have in common, in none that a type has, and without names.
#[test]
fn records_of_several_types_and_of_none() {
    let scratch = ready("several");
    let folder = &scratch.0;
    scratch.file("counts.fun", "type Nat = Zero | Succ Nat\ntype Ones = End | One Ones\nfun up (n : Nat) : Nat = Succ n\nfun down (n : Ones) : Ones = One n\n");
    done(folder, &[&["build", "pump.fun"], &["build", "valves.fun", "-o", "none.cf"]]);
    for (program, record, told) in [
        ("counts.fun", "2", "record  2\n"),
        ("pump.fun", "((), inr ())", "record  ((), inr ())\n  help: call service; no function of the program takes or gives such a record\n"),
        ("pump.fun", "Nil", "record  can be read in more than one way:\n  as List: Nil\n  as Nat: 0\n  help: ask the workshop which one is meant\n"),
        ("pump.fun", "Fill", "record  inl ()\n  help: call service; no function of the program takes or gives such a record\n"),
        ("none.cf", "0x0100", "record  inl ()\n"),
        ("none.cf", "3", "record  roll inr roll inr roll inr roll inl ()\n  help: call service; no function of the program takes or gives such a record\n"),
    ] {
        done(folder, &[&["open", "j", program, record, "--force"]]);
        assert_eq!(seen(folder, "j", &[]), format!("{told}no conversion stands\n"), "{program} {record}");
    }
}

#[test]
fn the_desk_gets_every_field_as_it_stands() {
    let scratch = ready("desk");
    let folder = &scratch.0;
    done(folder, &[&["open", "j", "pump.fun", "3"], &["convert", "j", "plus", "2"]]);
    // Document 01, section 6, P13.
    let expected = "{\"status\":\"accepted\",\"held\":\"5\",\"hex\":\"04020402040204020402040100\",\"conversions\":[{\"function\":\"plus\",\"ancillae\":[\"2\"],\"steps\":28}],\"fields\":\"22000d00000000001c04020402040100\"}\n";
    assert_eq!(printed(folder, "j", &["--json"]), expected);
    done(folder, &[&["rollback", "j"]]);
    assert!(printed(folder, "j", &["--json"]).ends_with(",\"conversions\":[],\"fields\":\"\"}\n"));
}

#[test]
fn only_journal_is_asked_for_at_the_bedside() {
    let scratch = ready("only");
    let folder = &scratch.0;
    done(folder, &[&["open", "j", "pump.fun", "3"]]);
    for words in [
        &["build", "pump.fun"][..],
        &["check", "pump.fun"],
        &["show", "pump.fun"],
        &["run", "pump.fun", "plus", "1", "2"],
        &["back", "pump.fun", "plus", "1", "2"],
        &["open", "k", "pump.fun", "3"],
        &["convert", "j", "plus", "1"],
        &["rollback", "j"],
        &["export", "j"],
        &["import", "k", "pump.fun", "j"],
    ] {
        let before = scratch.files();
        let ran = tulakkez(folder, &[words, &["--bedside"]].concat());
        let told = format!("tulakkez {0}: {0} has no option --bedside\n  help: tulakkez {0} --help\n", words[0]);
        assert_eq!((ran.status, ran.out.as_str(), ran.err.as_str()), (2, "", told.as_str()));
        assert_eq!(scratch.files(), before, "{words:?}");
        assert!(!tulakkez(folder, &[words[0], "--help"]).out.contains("bedside"), "{words:?}");
    }
    assert!(tulakkez(folder, &["journal", "--help"])
        .out
        .contains("  --bedside          tell the record and how many"));
    let ran = tulakkez(folder, &["journal", "j", "--bedside=1"]);
    assert_eq!((ran.status, ran.err.contains("--bedside takes nothing behind it")), (2, true), "{}", ran.err);
}

/// A whole file whose journal is another's bytes.
fn with_journal(folder: &Path, journal: &[u8]) {
    let bytes = fs::read(folder.join("j")).expect("a journal file");
    let contents = Contents { journal: journal.to_vec(), ..Contents::read(&bytes).expect("a whole file") };
    fs::write(folder.join("j"), contents.write()).expect("written");
}

#[test]
fn a_malformed_journal_is_refused_with_18() {
    let scratch = ready("malformed");
    let folder = &scratch.0;
    done(folder, &[&["open", "j", "pump.fun", "3"]]);
    for journal in [
        &[][..],
        &[0x21, 0, 1],
        &[0x21, 0, 1, 5],
        &[0x21, 0, 2, 0, 0],
        &[0x21, 0, 1, 0, 0, 7],
        &[0x21, 0, 1, 0, 0x22, 0, 5, 0, 0, 0, 0, 0],
        &[0x21, 0, 1, 0, 0x23, 0, 6, 0, 0, 0, 0, 0, 1],
        &[0x22, 0, 6, 0, 0, 0, 0, 0, 1],
    ] {
        with_journal(folder, journal);
        let before = scratch.files();
        for (words, told) in [
            (&["journal", "j", "--bedside"][..], MALFORMED),
            (&["journal", "j", "--bedside", "--hex"], MALFORMED),
            (
                &["journal", "j"],
                "j: error: refused 18: the journal is malformed\n  help: the bytes are not a journal ",
            ),
            (&["convert", "j", "plus", "1"], "refused 18: "),
            (&["rollback", "j"], "refused 18: "),
        ] {
            let ran = tulakkez(folder, words);
            assert_eq!((ran.status, ran.out.as_str()), (1, ""), "{journal:?} {words:?}: {}", ran.err);
            assert!(ran.err.contains(told), "{journal:?} {words:?}: {}", ran.err);
        }
        let ran = tulakkez(folder, &["journal", "j", "--bedside", "--json"]);
        let told = "{\"status\":\"refused\",\"number\":18,\"place\":0,\"meaning\":\"the journal is malformed\",\"message\":\"j: error: refused 18: the journal is malformed\\n  help: call service; nothing was changed\",\"file\":\"j\"}\n";
        assert_eq!((ran.status, ran.out.as_str(), ran.err.as_str()), (1, told, ""));
        let ran = tulakkez(folder, &["open", "j", "pump.fun", "3"]);
        assert!(ran.err.contains("a journal file that cannot be read is there"), "{}", ran.err);
        assert_eq!(scratch.files(), before, "{journal:?}");
    }
}

/// The nurse does the same about a damaged file as about a malformed journal.
#[test]
fn a_damaged_file_is_told_as_a_malformed_journal_at_the_bedside() {
    let scratch = ready("damage");
    let folder = &scratch.0;
    done(folder, &[&["open", "j", "pump.fun", "3"], &["convert", "j", "plus", "2"]]);
    let whole = fs::read(folder.join("j")).expect("the journal");
    let told = format!("{MALFORMED}  note: this journal file is damaged: its check sum does not fit\n");
    for at in [8, 20, 30, whole.len() / 2, whole.len() - 1] {
        let mut damaged = whole.clone();
        damaged[at] ^= 0x10;
        for bytes in [&damaged[..], &whole[..at]] {
            fs::write(folder.join("j"), bytes).expect("written");
            let ran = tulakkez(folder, &["journal", "j", "--bedside"]);
            assert_eq!((ran.status, ran.out.as_str(), ran.err.as_str()), (1, "", told.as_str()), "byte {at}");
            let ran = tulakkez(folder, &["journal", "j", "--bedside", "--json"]);
            assert!(ran.out.starts_with("{\"status\":\"refused\",\"number\":18,"), "{}", ran.out);
            assert_eq!(fs::read(folder.join("j")).expect("the journal"), bytes);
        }
    }
    for (name, told) in [
        ("pump.fun", "this is no journal file of tulakkez"),
        ("none", "No such file or directory (os error 2)"),
        (".", "is a directory"),
    ] {
        let ran = tulakkez(folder, &["journal", name, "--bedside"]);
        let told = format!("{name}: error: {told}\n  help: call service; nothing was changed\n");
        assert_eq!((ran.status, ran.out.as_str(), ran.err.as_str()), (2, "", told.as_str()));
    }
}

/// The journal of a call, where it has one, with its program.
fn journal_of(call: Call) -> Option<Contents> {
    let program = call.program().unwrap_or_default().to_vec();
    Some(Contents { program, journal: call.journal()?.to_vec(), text: String::new() })
}

/// What a command answers, asked without a process of its own.
fn answered(path: &Path, options: &[&str]) -> Answer {
    let words = [&["journal", path.to_str().expect("a name")][..], options].concat();
    run(&words.iter().map(|word| word.to_string()).collect::<Vec<_>>()).answer
}

/// What is told at the bedside in every form: status, standard output, standard error, and the line for scripts.
fn at_the_bedside(path: &Path, contents: &Contents) -> [(Status, String, String, String); 4] {
    fs::write(path, contents.write()).expect("written");
    FORMS.map(|options| {
        let answer = answered(path, &[&["--bedside"], options].concat());
        let scripts = answer.for_scripts();
        (answer.status, String::from_utf8(answer.out).expect("text"), answer.err, scripts)
    })
}

/// The same file with other entries behind the record, as many of them, in a buffer of another length.
fn otherwise(rng: &mut Rng, contents: &Contents) -> Contents {
    let other = with_other_entries(rng, &Journal::read(&contents.journal).expect("a sound journal"));
    let mut journal = in_buffer(rng, &other);
    if journal.len() == contents.journal.len() {
        journal.push(0);
    }
    Contents { journal, ..contents.clone() }
}

/// Random journals, sound and damaged: what both readers are told is the second evaluator's, and at the bedside nothing that entries change.
#[test]
fn both_readers_go_by_the_journal_s_form() {
    deep(|| {
        let scratch = Scratch::new("form");
        let path = scratch.0.join("j");
        let mut rng = Rng::new(23);
        let (mut sound, mut malformed) = (0, 0);
        for contents in Maker::new(21).take(8_000).filter_map(journal_of) {
            fs::write(&path, contents.write()).expect("written");
            let (bedside, desk) = (answered(&path, &["--bedside"]), answered(&path, &[]));
            let Some(Reading { held, standing, entries }) = Reading::of(&contents.journal) else {
                assert_eq!([bedside.status, desk.status], [Status::Refused; 2], "{contents:?}");
                assert!(bedside.for_scripts().contains("\"number\":18,\"place\":0,") && bedside.out.is_empty());
                malformed += 1;
                continue;
            };
            let seen = format!(",\"hex\":\"{}\",\"standing\":{standing}}}\n", hexadecimal(&held));
            assert!(bedside.for_scripts().ends_with(&seen), "{contents:?}: {}", bedside.for_scripts());
            let fields = format!(",\"fields\":\"{}\"}}\n", hexadecimal(&entries));
            assert!(desk.for_scripts().ends_with(&fields), "{contents:?}: {}", desk.for_scripts());
            let other = otherwise(&mut rng, &contents);
            let told = at_the_bedside(&path, &contents);
            assert_eq!(told, at_the_bedside(&path, &other), "{contents:?} {other:?}");
            sound += 1;
        }
        println!("{sound} sound, {malformed} malformed");
        assert!(sound > 500 && malformed > 100);
    });
}

/// A program that the engine refuses, since it loses its record.
const LOST: &str = "type Kind  = Fill | Drain
type Valve = Shut | Ajar
fun lost (k : Kind) : Valve = Shut
";

/// Programs by their texts, by bytes alone, with another's text, and such as the engine refuses. A journal is put into each.
fn programs() -> Vec<Contents> {
    let built = |text: &str| Converter::of_text(Source::new("t", text.to_string())).expect("a program").bytes;
    let [pump, valves, lost] = [PUMP, VALVES, LOST].map(built);
    assert!(engine::check(&valves).is_ok() && engine::check(&lost).is_err());
    let given = [
        (&pump, PUMP),
        (&valves, VALVES),
        (&valves, ""),
        (&valves, PUMP),
        (&lost, LOST),
        (&lost, ""),
        (&vec![1, 0, 9], ""),
        (&Vec::new(), ""),
    ];
    let contents = given.map(|(program, text)| (program.clone(), text.to_string()));
    contents.map(|(program, text)| Contents { program, text, journal: Vec::new() }).to_vec()
}

/// Entries of any kind, 0 to 64 of them, also such as the program cannot have written: the whole answer is of program, record and count.
#[test]
fn whatever_the_entries_are_the_whole_answer_at_the_bedside_is_the_same() {
    deep(|| {
        let scratch = Scratch::new("entries");
        let path = scratch.0.join("j");
        let mut rng = Rng::new(24);
        let (mut several, mut of_none, mut many) = (0, 0, 0);
        for mut contents in programs().iter().flat_map(|contents| vec![contents.clone(); 250]) {
            let mut journal = any_journal(&mut rng);
            if rng.chance(60) {
                journal.held = rng.pick(&[&[0][..], &[1, 0], &[2, 0], &[4, 1, 0], &[4, 2, 4, 1, 0]]).to_vec();
            }
            contents.journal = in_buffer(&mut rng, &journal);
            let told = at_the_bedside(&path, &contents);
            assert!(told.iter().all(|(status, _, err, _)| (*status, err.as_str()) == (Status::Accepted, "")));
            for _ in 0..3 {
                let other = otherwise(&mut rng, &contents);
                assert_eq!(told, at_the_bedside(&path, &other), "{contents:?} {other:?}");
            }
            several += usize::from(told[0].1.contains("more than one way"));
            of_none += usize::from(told[0].1.contains("call service"));
            many += usize::from(journal.conversions.len() > 4);
        }
        println!("{several} of several readings, {of_none} of none, {many} of more than 4 conversions");
        assert!(several > 100 && of_none > 400 && many > 400);
    });
}

/// A record, and the functions of a random text that keep it as it is.
struct Kept {
    made: Text,
    program: Vec<u8>,
    functions: Vec<usize>,
    record: Vec<u8>,
}

impl Kept {
    /// None where the program is not accepted, or only one function keeps the record.
    fn random(rng: &mut Rng) -> Option<Kept> {
        let made = random_text(rng);
        let mut converter = Converter::of_text(Source::new("t", made.text.clone())).expect("a program");
        let (variant, _) = *rng.pick(&made.functions);
        let of_variant = |number: &usize| made.functions[*number].0 == variant;
        let functions: Vec<usize> = (0..made.functions.len()).filter(of_variant).collect();
        let text = random_value(rng, &made.variants, Some(variant), 3);
        let record = values::read(&mut converter.program.types, &Source::new("v", text), None).expect("a value");
        let fits = engine::check(&converter.bytes).is_ok() && record.len() <= 500;
        (fits && functions.len() > 1).then_some(Kept { made, program: converter.bytes, functions, record })
    }

    /// A journal that holds the record after so many conversions, each by one of the functions.
    fn journal(&self, rng: &mut Rng, count: usize) -> Contents {
        let length = 2_000 + rng.below(100);
        let mut journal = engine::open(&self.program, &self.record, length).expect("opened");
        for _ in 0..count {
            let function = *rng.pick(&self.functions);
            let has_ancillae = self.made.functions[function].1;
            let ancillae = if has_ancillae { random_ancillae(rng) } else { Vec::new() };
            engine::convert(&self.program, function as u16, &ancillae, LARGEST_FUEL, &mut journal)
                .expect("converted");
        }
        Contents { program: self.program.clone(), journal, text: self.made.text.clone() }
    }
}

/// Random programs and records: two ways to one record and count are told alike at the bedside, and mostly not at the desk.
#[test]
fn equal_record_and_count_of_random_texts_are_told_alike_at_the_bedside() {
    deep(|| {
        let scratch = Scratch::new("random");
        let (one, other) = (scratch.0.join("one"), scratch.0.join("other"));
        let mut rng = Rng::new(22);
        let (mut pairs, mut apart) = (0, 0);
        while pairs < 300 {
            let Some(kept) = Kept::random(&mut rng) else { continue };
            let (count, text) = (rng.between(1, 4), &kept.made.text);
            for path in [&one, &other] {
                fs::write(path, kept.journal(&mut rng, count).write()).expect("written");
            }
            for options in FORMS {
                let options = [&["--bedside"], options].concat();
                let [one, other] = [&one, &other].map(|path| answered(path, &options));
                assert_eq!((one.status, one.err.as_str()), (Status::Accepted, ""), "{text}");
                assert_eq!((&one.out, one.for_scripts()), (&other.out, other.for_scripts()), "{text}");
            }
            pairs += 1;
            apart += usize::from(answered(&one, &[]).for_scripts() != answered(&other, &[]).for_scripts());
        }
        println!("{apart} of {pairs} are told apart at the desk");
        assert!(apart > 200);
    });
}

/// Converts and rolls back so often, one after another.
fn writer(folder: &Path, rounds: usize) -> Child {
    let rounds = rounds.to_string();
    let script = "for round in $(seq \"$1\"); do \"$0\" convert j plus 2 && \"$0\" rollback j || exit 1; done";
    let mut shell = Command::new("bash");
    shell.args(["-c", script]).arg(program()).arg(rounds).current_dir(folder).stdout(Stdio::null());
    shell.spawn().expect("a shell")
}

/// Beside a writer that replaces the file all the time a reader sees one whole state or the other.
#[test]
fn a_reader_beside_a_writer_sees_a_whole_state() {
    let scratch = ready("beside");
    let folder = &scratch.0;
    done(folder, &[&["open", "j", "pump.fun", "3"]]);
    let states = ["record  3\nno conversion stands\n", "record  5\n1 conversion stands\n"];
    let mut writer = writer(folder, 200);
    let mut met = [0, 0];
    let ended = loop {
        let ended = writer.try_wait().expect("its state");
        let ran: Ran = tulakkez(folder, &["journal", "j", "--bedside"]);
        let state = states.iter().position(|state| *state == ran.out);
        assert_eq!((ran.status, ran.err.as_str()), (0, ""), "{}", ran.out);
        met[state.unwrap_or_else(|| panic!("neither state: {}", ran.out))] += 1;
        if let Some(ended) = ended {
            break ended;
        }
    };
    println!("{met:?} reads");
    assert!(ended.success() && met.iter().all(|&met| met > 10), "{met:?}");
}
