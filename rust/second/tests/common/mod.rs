//! Files written as hex; letters in quotes would only hide the bytes.
#![allow(dead_code)]

pub mod assembler;

use second::{read, Design, Refusal};

pub fn hex(text: &str) -> Vec<u8> {
    let digits: Vec<u8> = text.bytes().filter(|b| !b.is_ascii_whitespace()).collect();
    assert_eq!(digits.len() % 2, 0, "half a byte in {text}");
    let value = |digit: u8| (digit as char).to_digit(16).expect("a hex digit") as u8;
    digits
        .chunks(2)
        .map(|two| value(two[0]) * 16 + value(two[1]))
        .collect()
}

pub const RG: &str = "52 47 05 00 00 00 ";
pub const CR: &str = "43 52 02 05 00 00 00 ";
pub const UM: &str = "55 4D ";
pub const SC: &str = "53 43 00 ";
/// V, Num, no parameters, the number 1.
pub const MD: &str = "4D 44 00 01 00 05 00 01 01 00 00 00 ";
/// Guard true, body local 0.
pub const RL: &str = "52 4C 04 00 02 01 03 00 ";
/// The design of P10.
pub const P10: &str = "52 47 05 00 00 00 55 4D 52 4C 11 00 02 01 0A 00 01 01 04 00 \
     0A 00 00 00 01 01 00 00 00 53 43 01 00";

pub fn reads(text: &str) -> Design {
    reads_bytes(&hex(text))
}

pub fn reads_bytes(file: &[u8]) -> Design {
    read(file).unwrap_or_else(|refusal| panic!("{refusal:?} for {file:02X?}"))
}

#[track_caller]
pub fn refused(text: &str, number: u8, place: usize) {
    refused_bytes(&hex(text), number, place);
}

#[track_caller]
pub fn refused_bytes(file: &[u8], number: u8, place: usize) {
    assert_eq!(read(file), Err(Refusal { number, place }), "{file:02X?}");
}

/// The texts one after the other.
pub fn join(texts: &[&str]) -> String {
    texts.concat()
}

/// A file with one rule that holds these bytes; the rule stands at 2.
pub fn with_rule(bytes: &[u8]) -> Vec<u8> {
    let mut file = hex("55 4D 52 4C");
    file.extend((bytes.len() as u16).to_le_bytes());
    file.extend(bytes);
    file.extend(hex(SC));
    file
}

/// A file with one method, V and Num, with this body; it stands at 2.
pub fn with_method(body: &[u8]) -> Vec<u8> {
    let mut file = hex("55 4D 4D 44 00 01 00");
    file.extend((body.len() as u16).to_le_bytes());
    file.extend(body);
    file.extend(hex(SC));
    file
}

/// What the lister prints for this count and file.
pub fn listing(count: u32, file: &[u8]) -> String {
    let mut out = Vec::new();
    let input = [&count.to_le_bytes(), file].concat();
    second::lister(&input, &mut out).expect("a list takes all");
    String::from_utf8(out).expect("plain letters")
}

/// The listing is these lines, each with its end.
#[track_caller]
pub fn lists(count: u32, file: &[u8], lines: &[&str]) {
    let expected: String = lines.iter().map(|line| format!("{line}\n")).collect();
    assert_eq!(listing(count, file), expected);
}
