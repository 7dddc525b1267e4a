//! Design files as text: hex, or assembly.

use std::fmt::Display;

use crate::{assembly, hex};

/// The bytes that a text stands for, and the line that each is from.
#[derive(Debug, Default, PartialEq, Eq)]
pub struct Text {
    pub bytes: Vec<u8>,
    pub lines: Vec<usize>,
}

impl Text {
    pub fn put(&mut self, bytes: &[u8], line: usize) {
        self.bytes.extend(bytes);
        self.lines.resize(self.bytes.len(), line);
    }
}

const MARKS: [&[u8]; 6] = [b"RG", b"CR", b"UM", b"MD", b"RL", b"SC"];

/// The text, if the file is one. A file that begins as a design is none, and
/// one with control characters is none; so no design is taken for a text.
pub fn as_text(file: &[u8]) -> Option<&str> {
    if file.is_empty() || MARKS.iter().any(|mark| file.starts_with(mark)) {
        return None;
    }
    let is_plain = |letter: char| !letter.is_control() || matches!(letter, '\t' | '\n' | '\r');
    let text = std::str::from_utf8(file).ok()?;
    // Some editors put a byte order mark in front.
    let text = text.strip_prefix('\u{FEFF}').unwrap_or(text);
    text.chars().all(is_plain).then_some(text)
}

pub fn parse(text: &str) -> Result<Text, String> {
    match assembly::is_assembly(text) {
        true => assembly::parse(text),
        false => hex::parse(text),
    }
}

/// A line without its comment.
#[derive(Clone, Copy, Debug, PartialEq, Eq)]
pub struct Line<'a> {
    pub number: usize,
    pub code: &'a str,
}

impl Line<'_> {
    /// Where a part of the line stands, which is told by where its letters are
    /// kept.
    pub fn place(&self, part: &str) -> Place {
        let before = (part.as_ptr() as usize).saturating_sub(self.code.as_ptr() as usize);
        let before = self.code.get(..before).unwrap_or("");
        Place {
            line: self.number,
            column: before.chars().count() + 1,
        }
    }
}

/// The lines that hold more than a comment.
pub fn lines(text: &str) -> impl Iterator<Item = Line<'_>> {
    (1..)
        .zip(text.lines())
        .map(|(number, line)| Line {
            number,
            code: line.split('#').next().unwrap_or(""),
        })
        .filter(|line| !line.code.trim().is_empty())
}

/// Where a text's last letter stands.
pub fn end(text: &str) -> Place {
    let mut letters = text.chars();
    letters.next_back();
    let before = letters.as_str();
    let last = before.rsplit('\n').next().unwrap_or("");
    Place {
        line: before.matches('\n').count() + 1,
        column: last.chars().count() + 1,
    }
}

/// Both count from 1, the column in letters.
#[derive(Clone, Copy, Debug, PartialEq, Eq)]
pub struct Place {
    pub line: usize,
    pub column: usize,
}

impl Place {
    pub fn fault(self, what: impl Display) -> String {
        let Place { line, column } = self;
        format!("line {line}, column {column}: {what}")
    }

    pub fn expected(self, what: &str, found: &str) -> String {
        self.fault(format!("expected {what}, found {}", cut(found)))
    }
}

/// Words may be the whole file, and white space may go anywhere when printed.
pub fn cut(words: &str) -> String {
    const SHOWN: usize = 40;
    let spaced = |letter: char| if letter.is_whitespace() { ' ' } else { letter };
    let shown: String = words.chars().take(SHOWN).map(spaced).collect();
    match words.chars().nth(SHOWN) {
        Some(_) => shown + "..",
        None => shown,
    }
}

#[cfg(test)]
mod tests {
    use super::*;

    #[test]
    fn what_is_a_text() {
        for text in ["52 47", "# é", "CD 01", "xyz", " ", "\n"] {
            assert_eq!(as_text(text.as_bytes()), Some(text));
        }
        assert_eq!(as_text("\u{FEFF}52".as_bytes()), Some("52"));
        let files: [&[u8]; 7] = [b"", b"CR", b"SC\0", b"RGxyz", b"52\0", b"52 \xFF", b"\x7F"];
        for file in files {
            assert_eq!(as_text(file), None, "{file:?}");
        }
    }

    #[test]
    fn lines_without_comments() {
        let all = lines("# a\n\n 52 # b\r\n47\r\n \t\n#");
        let all: Vec<(usize, &str)> = all.map(|line| (line.number, line.code)).collect();
        assert_eq!(all, [(3, " 52 "), (4, "47")]);
    }

    #[test]
    fn places_of_parts() {
        let line = Line {
            number: 7,
            code: "é\t52 47",
        };
        let column = |part: &str| line.place(part).column;
        let words: Vec<usize> = line.code.split_whitespace().map(column).collect();
        assert_eq!(words, [1, 3, 6]);
        assert_eq!(line.place(line.code).fault("odd"), "line 7, column 1: odd");
        assert_eq!(end("a\nb\n éx").fault("odd"), "line 3, column 3: odd");
        assert_eq!(end("a\nb\n").fault("odd"), "line 2, column 2: odd");
    }

    #[test]
    fn long_words_are_cut() {
        let place = Place { line: 3, column: 1 };
        let at = "line 3, column 1: expected a number, found";
        assert_eq!(place.expected("a number", "é"), format!("{at} é"));
        let long = place.expected("a number", &"é".repeat(1000));
        assert_eq!(long, format!("{at} {}..", "é".repeat(40)));
        assert_eq!(cut(&"é".repeat(40)), "é".repeat(40));
        assert_eq!(cut("call\t0\r.read"), "call 0 .read");
    }
}
