//! The command line.

use std::ffi::{OsStr, OsString};
use std::os::unix::ffi::OsStrExt;

use crate::converting::Form;
use crate::fault::{Done, Fault};

/// Clocks where none are asked for.
const CLOCKS: u32 = 20;

#[derive(Debug, PartialEq, Eq)]
pub enum Arguments {
    /// Help about a command, or about all.
    Help(Option<&'static str>),
    Version,
    /// The files to check.
    Check(Vec<OsString>),
    /// Another command and its file.
    Work(Command, OsString),
}

#[derive(Debug, PartialEq, Eq)]
pub enum Command {
    Convert { form: Form, out: OsString },
    Show,
    List { clocks: u32 },
    Run { clocks: u32 },
    Trace { clocks: u32, vcd: OsString },
}

const NAMES: [&str; 6] = ["check", "convert", "list", "run", "show", "trace"];

/// The options of a command. Each has a value.
fn options(name: &str) -> &'static [&'static str] {
    match name {
        "convert" => &["-o", "--to"],
        "list" | "run" => &["--clocks"],
        "trace" => &["--clocks", "--vcd"],
        _ => &[],
    }
}

/// What stands after the command's name.
#[derive(Default)]
struct Rest {
    help: bool,
    files: Vec<OsString>,
    values: Vec<(&'static str, OsString)>,
}

fn usage<T>(message: impl Into<String>) -> Done<T> {
    Err(Fault::Usage(message.into()))
}

impl Arguments {
    pub fn parse(mut words: impl Iterator<Item = OsString>) -> Done<Self> {
        let Some(first) = words.next() else {
            return usage("a command is missing");
        };
        if is_help(&first) {
            return Ok(Arguments::Help(None));
        }
        if first == "--version" || first == "-V" {
            return Ok(Arguments::Version);
        }
        if first == "help" {
            return help(words);
        }
        if is_option(&first) {
            return usage(format!("no option {}", first.display()));
        }
        let name = command(&first)?;
        let rest = Rest::parse(name, words)?;
        match rest.help {
            true => Ok(Arguments::Help(Some(name))),
            false => rest.work(name),
        }
    }
}

fn command(word: &OsStr) -> Done<&'static str> {
    match NAMES.into_iter().find(|name| word == *name) {
        Some(name) => Ok(name),
        None => usage(format!("no command: {}", word.display())),
    }
}

/// `help`, and maybe a command.
fn help(mut words: impl Iterator<Item = OsString>) -> Done<Arguments> {
    let about = match words.next() {
        Some(word) if !is_help(&word) => Some(command(&word)?),
        _ => None,
    };
    match words.next() {
        Some(_) => usage("help: more than one command"),
        None => Ok(Arguments::Help(about)),
    }
}

fn is_help(word: &OsStr) -> bool {
    word == "--help" || word == "-h"
}

/// A single - is a file: standard input.
fn is_option(word: &OsStr) -> bool {
    word.as_bytes().starts_with(b"-") && word != "-"
}

impl Rest {
    fn parse(name: &str, mut words: impl Iterator<Item = OsString>) -> Done<Self> {
        let mut rest = Rest::default();
        while let Some(word) = words.next() {
            if word == "--" {
                rest.files.extend(words.by_ref());
            } else if is_help(&word) {
                rest.help = true;
                return Ok(rest);
            } else if is_option(&word) {
                rest.option(name, &word, &mut words)?;
            } else {
                rest.files.push(word);
            }
        }
        Ok(rest)
    }

    /// An option, and its value after = or as the next word.
    fn option(
        &mut self,
        name: &str,
        word: &OsStr,
        words: &mut impl Iterator<Item = OsString>,
    ) -> Done<()> {
        let (option, joined) = parted(word);
        let Some(option) = options(name).iter().find(|known| option == **known) else {
            return usage(format!("{name}: no option {}", word.display()));
        };
        let Some(value) = joined.map(OsString::from).or_else(|| words.next()) else {
            return usage(format!("{option} wants a value"));
        };
        if self.values.iter().any(|(given, _)| given == option) {
            return usage(format!("{option} stands twice"));
        }
        self.values.push((*option, value));
        Ok(())
    }

    fn value(&self, option: &str) -> Option<OsString> {
        let mut values = self.values.iter();
        let given = values.find(|(given, _)| *given == option);
        given.map(|(_, value)| value.clone())
    }

    fn work(self, name: &str) -> Done<Arguments> {
        if self.files.is_empty() {
            return usage(format!("{name}: FILE is missing"));
        }
        if name == "check" {
            return check(self.files);
        }
        let [file] = &self.files[..] else {
            return usage(format!("{name}: more than one file"));
        };
        let given = self.value("--clocks").map(clocks).transpose()?;
        let clocks = given.unwrap_or(CLOCKS);
        let command = match (name, given, self.value("--vcd")) {
            ("convert", ..) => self.convert()?,
            ("show", ..) => Command::Show,
            ("list", ..) => Command::List { clocks },
            ("run", Some(clocks), _) => Command::Run { clocks },
            ("run", None, _) => return usage("run: --clocks N is missing"),
            (_, _, Some(vcd)) => Command::Trace { clocks, vcd },
            (_, _, None) => return usage("trace: --vcd OUT is missing"),
        };
        Ok(Arguments::Work(command, file.clone()))
    }

    fn convert(&self) -> Done<Command> {
        let Some(out) = self.value("-o") else {
            return usage("convert: -o OUT is missing");
        };
        let form = match self.value("--to") {
            Some(word) => match Form::named(&word) {
                Some(form) => form,
                None => return usage(format!("--to: not asm, hex or bin: {}", word.display())),
            },
            None if out == "-" => return usage("convert: -o - wants --to asm, hex or bin"),
            None => match Form::of_ending(&out) {
                Some(form) => form,
                None => {
                    return usage(format!(
                        "convert: the ending is not .asm, .txt, .hex or .bin, and there is no \
                         --to asm, hex or bin: {}",
                        out.display()
                    ))
                }
            },
        };
        Ok(Command::Convert { form, out })
    }
}

/// `--clocks=5` is an option and its value.
fn parted(word: &OsStr) -> (&OsStr, Option<&OsStr>) {
    let bytes = word.as_bytes();
    let equals = bytes.iter().position(|byte| *byte == b'=');
    match equals.filter(|_| bytes.starts_with(b"--")) {
        Some(at) => {
            let (option, value) = (&bytes[..at], &bytes[at + 1..]);
            (OsStr::from_bytes(option), Some(OsStr::from_bytes(value)))
        }
        None => (word, None),
    }
}

/// What was read to its end is not there a second time.
fn check(files: Vec<OsString>) -> Done<Arguments> {
    match files.iter().filter(|file| *file == "-").count() {
        0 | 1 => Ok(Arguments::Check(files)),
        _ => usage("check: standard input stands twice"),
    }
}

/// Any unsigned number of 32 bits; a sign is none of its digits.
fn clocks(word: OsString) -> Done<u32> {
    let text = word.to_str().unwrap_or("");
    let is_number = !text.is_empty() && text.bytes().all(|byte| byte.is_ascii_digit());
    match text.parse() {
        Ok(clocks) if is_number => Ok(clocks),
        _ if is_number => usage(format!("--clocks: {text} is over {}", u32::MAX)),
        _ => usage(format!(
            "--clocks: no clock count from 0 to {}: {}",
            u32::MAX,
            word.display()
        )),
    }
}

#[cfg(test)]
mod tests {
    use super::*;
    use std::os::unix::ffi::OsStringExt;

    /// File names are bytes, also after =, and only the first = parts.
    #[test]
    fn names_that_are_no_text() {
        let file = OsString::from_vec(b"\xFF-".to_vec());
        let vcd = OsString::from_vec(b"a=\xFE".to_vec());
        let joined = OsString::from_vec(b"--vcd=a=\xFE".to_vec());
        let parsed = Arguments::parse(["trace".into(), joined, file.clone()].into_iter());
        let command = Command::Trace { clocks: 20, vcd };
        assert_eq!(parsed, Ok(Arguments::Work(command, file)));
    }

    #[test]
    fn after_the_options() {
        let words = ["check", "--", "-x", "--", "--help"].map(OsString::from);
        let files = words[2..].to_vec();
        let parsed = Arguments::parse(words.into_iter());
        assert_eq!(parsed, Ok(Arguments::Check(files)));
    }
}
