//! Hex texts: pairs of hex digits and whitespace.

use std::io::{self, Write};

use cantaribol::{Design, Record};

use crate::assembly;
use crate::text::{cut, lines, Place, Text};

pub fn parse(text: &str) -> Result<Text, String> {
    let mut parsed = Text::default();
    for line in lines(text) {
        for word in line.code.split_whitespace() {
            let is_first = parsed.bytes.is_empty();
            let bytes = pairs(word).ok_or_else(|| no_pairs(is_first, line.place(word), word))?;
            parsed.put(&bytes, line.number);
        }
    }
    Ok(parsed)
}

/// A text that begins with pairs is meant as hex; of any other nobody knows.
fn no_pairs(is_first: bool, place: Place, word: &str) -> String {
    match is_first {
        true => place.fault(format!(
            "neither hex pairs nor assembly: expected pairs of hex digits or {}, found {}",
            assembly::RECORD_WORDS,
            cut(word)
        )),
        false => place.expected("pairs of hex digits", word),
    }
}

/// `0A01` is two bytes.
fn pairs(word: &str) -> Option<Vec<u8>> {
    let digits: Option<Vec<u32>> = word.chars().map(|digit| digit.to_digit(16)).collect();
    let digits = digits.filter(|digits| digits.len() % 2 == 0)?;
    let byte = |pair: &[u32]| (16 * pair[0] + pair[1]) as u8;
    Some(digits.chunks(2).map(byte).collect())
}

/// Each record begins a line.
pub fn print(design: &Design, out: &mut dyn Write) -> io::Result<()> {
    const LONGEST: usize = 16;
    let records = design.records();
    let mut starts: Vec<usize> = records.iter().map(Record::offset).collect();
    starts.push(design.file().len());
    for ends in starts.windows(2) {
        for row in design.file()[ends[0]..ends[1]].chunks(LONGEST) {
            let pairs: Vec<String> = row.iter().map(|byte| format!("{byte:02X}")).collect();
            writeln!(out, "{}", pairs.join(" "))?;
        }
    }
    Ok(())
}

#[cfg(test)]
mod tests {
    use super::*;

    #[test]
    fn a_line_for_each_record() {
        let file = b"RG\x05\0\0\0UMRL\x11\0\x02\x01\x0A\0\x01\x01\x04\0\
                     \x0A\0\0\0\x01\x01\0\0\0SC\x01\0";
        let mut text = Vec::new();
        print(&Design::read(file).expect("a design"), &mut text).expect("room");
        let expected = "52 47 05 00 00 00\n55 4D\n\
                        52 4C 11 00 02 01 0A 00 01 01 04 00 0A 00 00 00\n01 01 00 00 00\n\
                        53 43 01 00\n";
        assert_eq!(String::from_utf8(text).as_deref(), Ok(expected));
        assert_eq!(parse(expected).expect("a text").bytes, file);
    }

    #[test]
    fn pairs_and_comments() {
        let text = parse("52 47 # RG 99\n\n  0aFf\t00\r\n#").expect("a text");
        assert_eq!(text.bytes, [0x52, 0x47, 0x0A, 0xFF, 0x00]);
        assert_eq!(text.lines, [1, 1, 3, 3, 3]);
        assert_eq!(parse("# nothing").expect("a text").bytes, []);
    }

    #[test]
    fn no_pairs_after_pairs() {
        let fault = parse("52 47 # RG 99\n\n  0aFf\t00\r\n#\n01 \t 7");
        let words = "line 5, column 6: expected pairs of hex digits, found 7";
        assert_eq!(fault, Err(words.to_string()));
        for text in ["52 2", "52 0x52", "52 5247G", "52 +5", "52 52;"] {
            let fault = parse(text).expect_err(text);
            assert!(fault.starts_with("line 1, column 4: expected pairs"));
        }
    }

    #[test]
    fn neither() {
        let fault = parse("# a\n  simulate 52");
        let words = "line 2, column 3: neither hex pairs nor assembly: expected pairs of hex \
                     digits or instance, method, rule or schedule, found simulate";
        assert_eq!(fault, Err(words.to_string()));
        for text in ["5", "5 2", "0x52", "5247G", "+5", "52;", "Instance 0: UM"] {
            let fault = parse(text).expect_err(text);
            assert!(fault.starts_with("line 1, column 1: neither hex pairs nor assembly: "));
        }
    }
}
