//! Runs of the program itself.

use std::ffi::OsString;
use std::path::{Path, PathBuf};
use std::process::{Command, Output};

pub fn root() -> PathBuf {
    Path::new(env!("CARGO_MANIFEST_DIR")).join("../..")
}

/// The program under test. TULAKKEZ names another.
pub fn program() -> PathBuf {
    match std::env::var_os("TULAKKEZ") {
        Some(path) => PathBuf::from(path),
        None => root().join("tools/tulakkez/target/release/tulakkez"),
    }
}

pub struct Ran {
    pub status: i32,
    pub out: String,
    pub err: String,
}

impl From<Output> for Ran {
    fn from(output: Output) -> Ran {
        Ran {
            status: output.status.code().unwrap_or(-1),
            out: String::from_utf8_lossy(&output.stdout).into_owned(),
            err: String::from_utf8_lossy(&output.stderr).into_owned(),
        }
    }
}

pub fn tulakkez(folder: &Path, words: &[&str]) -> Ran {
    let output = Command::new(program()).args(words).current_dir(folder).output();
    output.expect("the program runs").into()
}

/// Runs a test with the stack that the program has.
pub fn deep(test: impl FnOnce() + Send + 'static) {
    let thread = std::thread::Builder::new().stack_size(256 << 20).spawn(test);
    thread.expect("a thread").join().expect("the test");
}

/// A folder that is gone when this is.
pub struct Scratch(pub PathBuf);

impl Scratch {
    pub fn new(name: &str) -> Scratch {
        let path = std::env::temp_dir().join(format!("tulakkez-{name}-{}", std::process::id()));
        let _ = std::fs::remove_dir_all(&path);
        std::fs::create_dir_all(&path).expect("a folder");
        Scratch(path)
    }

    pub fn file(&self, name: &str, text: &str) {
        std::fs::write(self.0.join(name), text).expect("a file");
    }

    /// The names of all that is in it, with their bytes where they are files.
    pub fn files(&self) -> Vec<(OsString, Option<Vec<u8>>)> {
        let entries = std::fs::read_dir(&self.0).expect("a folder").flatten();
        let mut files: Vec<_> =
            entries.map(|entry| (entry.file_name(), std::fs::read(entry.path()).ok())).collect();
        files.sort();
        files
    }
}

impl Drop for Scratch {
    fn drop(&mut self) {
        let _ = std::fs::remove_dir_all(&self.0);
    }
}
