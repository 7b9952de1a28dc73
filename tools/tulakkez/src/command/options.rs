//! A command line taken apart.

use super::help::Command;
use crate::engine::LARGEST_FUEL;

#[derive(Clone, PartialEq, Eq, Debug)]
pub struct Options {
    pub arguments: Vec<String>,
    pub output: Option<String>,
    pub force: bool,
    pub offsets: bool,
    pub fuel: u16,
    pub hex: bool,
    /// The depth to which terms are shown, if they are.
    pub trace: Option<usize>,
    pub length: Option<usize>,
    pub no_wait: bool,
    pub bedside: bool,
    pub json: bool,
    pub help: bool,
}

impl Default for Options {
    fn default() -> Options {
        Options {
            arguments: Vec::new(),
            output: None,
            force: false,
            offsets: false,
            fuel: LARGEST_FUEL,
            hex: false,
            trace: None,
            length: None,
            no_wait: false,
            bedside: false,
            json: false,
            help: false,
        }
    }
}

/// The most bytes that a journal's buffer has here.
const LONGEST_JOURNAL: usize = 131_072;

impl Options {
    /// What stands behind the command's name; why not, if it cannot be read.
    pub fn read(command: &Command, words: &[String]) -> Result<Options, String> {
        let mut options = Options::default();
        let mut words = words.iter().cloned();
        while let Some(word) = words.next() {
            if word == "--" {
                options.arguments.extend(words.by_ref());
            } else if word == "-h" || word == "--help" {
                options.help = true;
            } else if word.starts_with('-') && word.len() > 1 {
                options.take(command, &word, &mut words)?;
            } else {
                options.arguments.push(word);
            }
        }
        let (fewest, most) = command.arguments;
        if !options.help && !(fewest..=most).contains(&options.arguments.len()) {
            return Err(format!("{} takes {}", command.name, command.usage));
        }
        Ok(options)
    }

    fn take(
        &mut self,
        command: &Command,
        word: &str,
        rest: &mut impl Iterator<Item = String>,
    ) -> Result<(), String> {
        let (name, mut behind) = match word.split_once('=') {
            Some((name, value)) => (name, Some(value.to_string())),
            None => (word, None),
        };
        let name = if name == "-o" { "--output" } else { name };
        if !command.options.contains(&name) {
            return Err(format!("{} has no option {name}", command.name));
        }
        if matches!(name, "--output" | "--fuel" | "--length") && behind.is_none() {
            behind = Some(rest.next().ok_or_else(|| format!("{name} needs something behind it"))?);
        }
        let unneeded = behind.is_some() && !matches!(name, "--output" | "--fuel" | "--length" | "--trace");
        if unneeded {
            return Err(format!("{name} takes nothing behind it"));
        }
        match name {
            "--output" => self.output = behind,
            "--fuel" => self.fuel = number(name, behind, usize::from(u16::MAX))? as u16,
            "--length" => self.length = Some(number(name, behind, LONGEST_JOURNAL)?),
            "--trace" => {
                self.trace = Some(if behind.is_some() { number(name, behind, usize::MAX)? } else { usize::MAX })
            }
            "--force" => self.force = true,
            "--offsets" => self.offsets = true,
            "--hex" => self.hex = true,
            "--no-wait" => self.no_wait = true,
            "--bedside" => self.bedside = true,
            _ => self.json = true,
        }
        Ok(())
    }
}

fn number(name: &str, text: Option<String>, most: usize) -> Result<usize, String> {
    let number = text.and_then(|text| text.parse().ok()).filter(|&number| number <= most);
    number.ok_or_else(|| match most {
        usize::MAX => format!("{name} needs a number"),
        _ => format!("{name} needs a number from 0 to {most}"),
    })
}

#[cfg(test)]
mod tests {
    use super::super::help::find;
    use super::*;

    fn read(name: &str, words: &[&str]) -> Result<Options, String> {
        let words: Vec<String> = words.iter().map(|word| word.to_string()).collect();
        Options::read(find(name).expect("a command"), &words)
    }

    #[test]
    fn options_stand_anywhere() {
        let options = read("run", &["p", "--fuel", "28", "f", "--hex", "--trace=3", "1"]).expect("options");
        assert_eq!(options.arguments, ["p", "f", "1"]);
        assert_eq!((options.fuel, options.hex, options.trace), (28, true, Some(3)));
        assert_eq!(read("check", &["--", "--json"]).expect("options").arguments, ["--json"]);
        assert!(read("journal", &["--bedside", "j"]).is_ok_and(|options| options.bedside));
    }

    #[test]
    fn what_does_not_fit_is_told() {
        for (name, words) in [
            ("run", &["p", "f"][..]),
            ("run", &["p", "f", "1", "--fuel"]),
            ("run", &["p", "f", "1", "--fuel", "65536"]),
            ("run", &["p", "f", "1", "--force"]),
            ("check", &["p", "--json=1"]),
            ("rollback", &["j", "--bedside"]),
            ("check", &["p", "q"]),
        ] {
            assert!(read(name, words).is_err(), "{name} {words:?}");
        }
    }
}
