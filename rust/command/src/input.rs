//! The file that a command is about.

use std::ffi::OsStr;
use std::fs::{File, Metadata};
use std::io::{self, Read, Write};
use std::os::fd::AsFd;
use std::os::unix::fs::MetadataExt;

use cantaribol::{Design, Refusal};

use crate::fault::{Done, Fault, Verdict};
use crate::text::{self, Text};

/// More is not read; a design has at most 32,768 bytes, a text of it a few
/// hundred thousand.
const MOST: usize = 16 << 20;

pub struct Input {
    name: String,
    bytes: Vec<u8>,
    /// For a text, the line of each byte.
    lines: Vec<usize>,
    /// For a file with a place on a disk, its device and its inode.
    file: Option<(u64, u64)>,
}

pub fn load(file: &OsStr) -> Done<Input> {
    let standard = file == "-";
    let name = match standard {
        true => "standard input".to_string(),
        false => file.display().to_string(),
    };
    let opened = match standard {
        true => io::stdin().as_fd().try_clone_to_owned().map(File::from),
        false => File::open(file),
    };
    let read = opened.and_then(|file| Ok((identity(&file.metadata()?), read_all(file)?)));
    let (file, bytes) = read.map_err(|error| Fault::Io(format!("{name}: {error}")))?;
    let parsed = match text::as_text(&bytes) {
        Some(text) if bytes.len() > MOST => {
            Err(text::end(text).fault(format!("a text over {MOST} bytes")))
        }
        Some(text) => text::parse(text),
        None => Ok(Text {
            bytes,
            lines: Vec::new(),
        }),
    };
    let Text { bytes, lines } = parsed.map_err(|fault| Fault::Io(format!("{name}: {fault}")))?;
    Ok(Input {
        name,
        bytes,
        lines,
        file,
    })
}

/// A pipe or a device can be read and written at once.
fn identity(found: &Metadata) -> Option<(u64, u64)> {
    found.is_file().then(|| (found.dev(), found.ino()))
}

fn read_all(file: impl Read) -> io::Result<Vec<u8>> {
    let mut bytes = Vec::new();
    file.take(MOST as u64 + 1).read_to_end(&mut bytes)?;
    Ok(bytes)
}

impl Input {
    pub fn name(&self) -> &str {
        &self.name
    }

    /// Whether this is the file that was read, by whatever name.
    pub fn is_from(&self, found: &Metadata) -> bool {
        self.file.is_some() && self.file == identity(found)
    }

    /// The design; a refusal is printed as the lister does.
    pub fn design(&self, out: &mut dyn Write) -> Done<Result<Design<'_>, Verdict>> {
        match Design::read(&self.bytes) {
            Ok(design) => Ok(Ok(design)),
            Err(refusal) => {
                writeln!(out, "REFUSED {} {}", refusal.number(), refusal.place())?;
                Ok(Err(self.refused(refusal)))
            }
        }
    }

    fn refused(&self, refusal: Refusal) -> Verdict {
        let words = match refusal.entry(&self.bytes) {
            Some(entry) => format!("refused: {refusal}: {entry}"),
            None => format!("refused: {refusal}"),
        };
        self.bad(words, Some(refusal.place()))
    }

    /// Words about the design; with the line that the byte at `offset` is
    /// from, if it is a text.
    pub fn bad(&self, words: String, offset: Option<usize>) -> Verdict {
        let name = &self.name;
        let line = offset.and_then(|offset| self.lines.get(offset));
        Verdict::Bad(match line {
            Some(line) => format!("{name}: {words}, line {line} of the text"),
            None => format!("{name}: {words}"),
        })
    }
}
