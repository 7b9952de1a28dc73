//! The commands, their options and what `--help` says.

pub struct Command {
    pub name: &'static str,
    /// Arguments as they are written.
    pub usage: &'static str,
    /// Fewest and most arguments.
    pub arguments: (usize, usize),
    pub options: &'static [&'static str],
    pub about: &'static str,
}

/// As many as one likes.
const MANY: usize = usize::MAX;

pub const COMMANDS: [Command; 11] = [
    Command {
        name: "build",
        usage: "FILE.fun",
        arguments: (1, 1),
        options: &["--output", "--force", "--json"],
        about: "Builds a text, has the engine check it, and writes the program's bytes into FILE.cf\nand a map from their entries to places in the text into FILE.cf.map.",
    },
    Command {
        name: "check",
        usage: "PROGRAM",
        arguments: (1, 1),
        options: &["--json"],
        about: "Has the engine check a program.",
    },
    Command {
        name: "show",
        usage: "PROGRAM",
        arguments: (1, 1),
        options: &["--offsets", "--json"],
        about: "Writes a program as text that builds to the same program, up to the numbering of its entries.",
    },
    Command {
        name: "run",
        usage: "PROGRAM FUNCTION ANCILLA.. VALUE",
        arguments: (3, MANY),
        options: &["--fuel", "--hex", "--trace", "--json"],
        about: "Runs a function forward: from a value of its last parameter's type to one of its result's.",
    },
    Command {
        name: "back",
        usage: "PROGRAM FUNCTION ANCILLA.. VALUE",
        arguments: (3, MANY),
        options: &["--fuel", "--hex", "--trace", "--json"],
        about: "Runs a function backward: from a value of its result's type to the one that it came from.",
    },
    Command {
        name: "open",
        usage: "JOURNAL PROGRAM RECORD",
        arguments: (3, 3),
        options: &["--length", "--force", "--no-wait", "--json"],
        about: "Makes a journal file that holds the program and a first record.",
    },
    Command {
        name: "convert",
        usage: "JOURNAL FUNCTION ANCILLA..",
        arguments: (2, MANY),
        options: &["--fuel", "--hex", "--no-wait", "--json"],
        about: "Converts the held record by a function of the journal's own program.",
    },
    Command {
        name: "rollback",
        usage: "JOURNAL",
        arguments: (1, 1),
        options: &["--hex", "--no-wait", "--json"],
        about: "Rolls the newest standing conversion back. Its fuel is what the journal has recorded.",
    },
    Command {
        name: "journal",
        usage: "JOURNAL",
        arguments: (1, 1),
        options: &["--bedside", "--hex", "--json"],
        about: "Tells the held record and the standing conversions, oldest first. At the bedside it tells the record and how many\nconversions stand, and nothing of the conversions themselves.",
    },
    Command {
        name: "export",
        usage: "JOURNAL [FILE]",
        arguments: (1, 2),
        options: &["--force", "--json"],
        about: "Writes the bare bytes of the journal into FILE, or to standard output.",
    },
    Command {
        name: "import",
        usage: "JOURNAL PROGRAM FILE",
        arguments: (3, 3),
        options: &["--force", "--no-wait", "--json"],
        about: "Makes a journal file of a program and the bare bytes of a journal in FILE. All conversions are rolled back and\nmade again first, so that a journal of another program is refused.",
    },
];

/// Options with what stands behind them and what they do.
const OPTIONS: [(&str, &str, &str); 10] = [
    ("--output", " FILE", "write the program there (also -o)"),
    ("--force", "", "replace a file that is there already"),
    ("--offsets", "", "list each entry's offset too"),
    ("--fuel", " N", "take at most so many steps; 65535 unless said"),
    ("--hex", "", "write values in hexadecimal"),
    ("--trace", "[=DEPTH]", "show the terms that are entered, to a depth"),
    ("--length", " N", "the length of the journal's buffer; 67139 bytes, which are always enough, unless said"),
    ("--no-wait", "", "do not wait for another writer of the journal"),
    ("--bedside", "", "tell the record and how many conversions stand, and nothing else"),
    ("--json", "", "answer in one line of JSON"),
];

const FOOT: &str = "\
PROGRAM is a text (FILE.fun), a program's bytes, or a journal file, whose program is meant. FUNCTION is a
name or a number. Values are text in the program's own types, as Cons (Fill, 7) Nil or 12, or bytes in hexadecimal behind 0x.

Exit status: 0 accepted, 1 refused by the engine, 2 nothing was asked of the engine (usage, a file, a text),
3 done, but the answer could not be written.
";

pub fn find(name: &str) -> Option<&'static Command> {
    COMMANDS.iter().find(|command| command.name == name)
}

pub fn all() -> String {
    let mut text = "tulakkez: converters that run both ways, and journals of conversions\n\n".to_string();
    for command in &COMMANDS {
        text += &format!("  tulakkez {} {}\n", command.name, command.usage);
    }
    text + "\ntulakkez COMMAND --help tells more of a command, tulakkez --version the version.\n\n" + FOOT
}

pub fn one(command: &Command) -> String {
    let mut text = format!("tulakkez {} {}\n\n{}\n\n", command.name, command.usage, command.about);
    for (name, behind, about) in OPTIONS.iter().filter(|(name, ..)| command.options.contains(name)) {
        text += &format!("  {:<18} {about}\n", format!("{name}{behind}"));
    }
    text + "\n" + FOOT
}
