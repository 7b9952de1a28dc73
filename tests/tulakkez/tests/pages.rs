//! The examples of the pages: each block that begins with `fun` and a name is a file; each command in a console block prints the lines below it.

use std::os::unix::fs::symlink;
use std::path::PathBuf;
use std::process::Command;
use tulakkez_tests::command::{program, root, Scratch};

struct Block {
    kind: String,
    lines: Vec<String>,
}

fn blocks(page: &str) -> Vec<Block> {
    let text = std::fs::read_to_string(root().join(page)).expect("the page");
    let mut blocks: Vec<Block> = Vec::new();
    let mut inside = false;
    for line in text.lines() {
        match line.strip_prefix("```") {
            Some(kind) if !inside => {
                blocks.push(Block { kind: kind.to_string(), lines: Vec::new() });
                inside = true;
            }
            Some(_) => inside = false,
            None if inside => blocks.last_mut().expect("a block").lines.push(line.to_string()),
            None => (),
        }
    }
    blocks
}

/// Commands with the lines that they print.
fn commands(block: &Block) -> Vec<(String, String)> {
    let mut commands: Vec<(String, String)> = Vec::new();
    for line in &block.lines {
        match (line.strip_prefix("$ "), commands.last_mut()) {
            (Some(command), _) => commands.push((command.to_string(), String::new())),
            (None, Some((_, printed))) => *printed += &format!("{line}\n"),
            (None, None) => panic!("no command before {line}"),
        }
    }
    commands
}

/// Plays a page in a folder of its own; how many commands it has.
fn plays(page: &str) -> usize {
    plays_in(page, &Scratch::new(&page.replace(['/', '.'], "-")))
}

/// Plays a page; all commands that differ are told.
fn plays_in(page: &str, scratch: &Scratch) -> usize {
    let bin: PathBuf = program().parent().expect("a folder").canonicalize().expect("the program's folder");
    let path = format!("{}:{}", bin.display(), std::env::var("PATH").unwrap_or_default());
    let (mut count, mut wrong) = (0, String::new());
    for block in blocks(page) {
        if let Some(name) = block.kind.strip_prefix("fun ") {
            scratch.file(name, &format!("{}\n", block.lines.join("\n")));
        }
        if block.kind != "console" {
            continue;
        }
        for (command, expected) in commands(&block) {
            let mut shell = Command::new("bash");
            shell.args(["-c", &format!("{{ {command}\n}} 2>&1")]).current_dir(&scratch.0).env("PATH", &path);
            let printed = String::from_utf8_lossy(&shell.output().expect("bash runs").stdout).into_owned();
            if printed != expected {
                wrong += &format!("$ {command}\n{printed}instead of\n{expected}\n");
            }
            count += 1;
        }
    }
    assert!(wrong.is_empty(), "{page}:\n{wrong}");
    count
}

#[test]
fn the_language() {
    assert!(plays("docs/LANGUAGE.md") >= 20);
}

/// Every form of the grammar has an example: each file is accepted.
#[test]
fn every_file_of_the_language_page_is_accepted() {
    let scratch = Scratch::new("page-files");
    let files: Vec<Block> =
        blocks("docs/LANGUAGE.md").into_iter().filter(|block| block.kind.starts_with("fun ")).collect();
    assert!(files.len() >= 7);
    for block in files {
        scratch.file("t.fun", &block.lines.join("\n"));
        let ran = tulakkez_tests::command::tulakkez(&scratch.0, &["check", "t.fun"]);
        assert_eq!(ran.status, 0, "{}: {}", block.kind, ran.err);
    }
}

/// A file of the pages that examples/texts has too is the same there.
#[test]
fn the_examples_of_the_pages_are_those_of_the_folder() {
    let mut shared = 0;
    for block in ["docs/LANGUAGE.md", "docs/TULAKKEZ.md"].into_iter().flat_map(blocks) {
        let Some(name) = block.kind.strip_prefix("fun ") else { continue };
        let Ok(text) = std::fs::read_to_string(root().join("examples/texts").join(name)) else { continue };
        assert_eq!(text.lines().collect::<Vec<_>>(), block.lines, "{name}");
        shared += 1;
    }
    assert!(shared > 0);
}

#[test]
fn the_command() {
    assert!(plays("docs/TULAKKEZ.md") >= 20);
}

/// The front page's first call, as from the project's root.
#[test]
fn the_front_page() {
    let scratch = Scratch::new("front-page");
    let built = scratch.0.join("target/bin");
    std::fs::create_dir_all(&built).expect("a folder for the program");
    symlink(program().canonicalize().expect("the program"), built.join("tulakkez"))
        .expect("a link to the program");
    let examples = root().canonicalize().expect("the root").join("examples");
    symlink(examples, scratch.0.join("examples")).expect("a link to the examples");
    assert_eq!(plays_in("README.md", &scratch), 2);
}
