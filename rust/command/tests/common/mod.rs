//! Running the command.
#![allow(dead_code)]

use std::ffi::OsStr;
use std::fs;
use std::io::Write;
use std::path::{Path, PathBuf};
use std::process::{Command, Output, Stdio};

/// The design of case P10: a rule that adds 1 to a register that starts at 5.
pub const P10: &[u8] = b"RG\x05\0\0\0UMRL\x11\0\x02\x01\x0A\0\x01\x01\x04\0\
                         \x0A\0\0\0\x01\x01\0\0\0SC\x01\0";

/// A rule whose guard is a number: 21, at the record at 8 (case P8).
pub const NUMBER_GUARD: &[u8] = b"RG\x05\0\0\0UMRL\x0E\0\x01\x01\0\0\0\
                                  \x0A\0\x01\x01\x01\x02\0\0\0SC\x01\0";

pub fn command() -> Command {
    Command::new(env!("CARGO_BIN_EXE_cantaribol"))
}

/// What a command printed, and its exit status.
#[derive(Debug, PartialEq, Eq)]
pub struct Said {
    pub status: Option<i32>,
    pub out: String,
    pub err: String,
}

impl From<Output> for Said {
    fn from(output: Output) -> Self {
        Said {
            status: output.status.code(),
            out: String::from_utf8(output.stdout).expect("plain letters"),
            err: String::from_utf8(output.stderr).expect("plain letters"),
        }
    }
}

pub fn said<W: AsRef<OsStr>>(words: &[W]) -> Said {
    command().args(words).output().expect("it runs").into()
}

/// The command with these bytes as its standard input.
pub fn said_of(words: &[&str], input: &[u8]) -> Said {
    let mut child = command()
        .args(words)
        .stdin(Stdio::piped())
        .stdout(Stdio::piped())
        .stderr(Stdio::piped())
        .spawn()
        .expect("it runs");
    // A command that needs no input may be gone before it is written.
    let _ = child.stdin.take().expect("a pipe").write_all(input);
    child.wait_with_output().expect("it ends").into()
}

pub fn designs() -> PathBuf {
    PathBuf::from(concat!(env!("CARGO_MANIFEST_DIR"), "/../../designs"))
}

pub fn stored(name: &str, ending: &str) -> String {
    let path = designs().join(name).with_extension(ending);
    fs::read_to_string(&path).unwrap_or_else(|error| panic!("{}: {error}", path.display()))
}

/// A path for what a test writes.
pub fn scratch(name: &str) -> PathBuf {
    Path::new(env!("CARGO_TARGET_TMPDIR")).join(name)
}

/// An empty folder for one test.
pub fn empty_folder(name: &str) -> PathBuf {
    let folder = scratch(name);
    let _ = fs::remove_dir_all(&folder);
    fs::create_dir_all(&folder).expect("a folder");
    folder
}

/// What stands in a folder.
pub fn names(folder: &Path) -> Vec<String> {
    let entries = fs::read_dir(folder).expect("a folder");
    let name = |entry: fs::DirEntry| entry.file_name().display().to_string();
    let mut names: Vec<String> = entries.map(|entry| name(entry.expect("a name"))).collect();
    names.sort();
    names
}
