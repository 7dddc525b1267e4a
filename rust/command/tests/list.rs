//! `list` and `run`: as document 01 prints, and as the bundled designs'
//! sources say.

mod common;
use common::*;
use generator::bundle::bundle;
use generator::cases::CASES;
use generator::running::nth_design;

fn listed(words: &[&str], input: &[u8]) -> (Option<i32>, String) {
    let said = said_of(words, input);
    let is_bad = said.status == Some(1);
    assert_eq!(is_bad, !said.err.is_empty(), "{}", said.err);
    (said.status, said.out)
}

/// The prints that the documents give.
#[test]
fn stored_cases() {
    let mut tried = 0;
    for stored in CASES {
        let case = stored.parse().expect(stored.name);
        let Some((count, file)) = case.input.split_first_chunk::<4>() else {
            continue;
        };
        let count = u32::from_le_bytes(*count).to_string();
        let is_bad = case.prints.contains("STUCK") || case.prints.contains("REFUSED");
        let expected = (Some(i32::from(is_bad)), case.prints);
        let words = ["list", "-", "--clocks", &count];
        assert_eq!(listed(&words, file), expected, "{}", stored.name);
        tried += 1;
    }
    assert!(tried > 10);
}

#[test]
fn bundled_designs() {
    for design in bundle() {
        let expected = stored(design.name, "expected");
        let clocks = (expected.lines().count() - 1).to_string();
        for ending in ["hex", "bin"] {
            let path = designs().join(design.name).with_extension(ending);
            let path = path.to_str().expect("a plain path");
            let said = said(&["list", path, "--clocks", &clocks]);
            assert_eq!((said.status, &said.err[..]), (Some(0), ""));
            assert_eq!(said.out, expected, "{path}");
        }
        let last = expected.lines().last().expect("an ending");
        let path = designs().join(design.name).with_extension("hex");
        let path = path.to_str().expect("a plain path");
        let said = said(&["run", path, "--clocks", &clocks]);
        assert_eq!((said.status, said.out), (Some(0), format!("{last}\n")));
    }
}

#[test]
fn twenty_clocks_if_not_told() {
    let (status, out) = listed(&["list", "-"], P10);
    assert_eq!(status, Some(0));
    assert_eq!(out.lines().count(), 21);
    assert!(out.ends_with("19 F\nLIMIT 20 25 -\n"));
}

/// The largest count is no fault; a quiet design ends at once.
#[test]
fn any_clock_count() {
    let quiet = (Some(0), "0 .\nQUIET 0\n".to_string());
    let most = ["list", "-", "--clocks", "4294967295"];
    assert_eq!(listed(&most, b"SC\0"), quiet);
    let none = (Some(0), "LIMIT 0 5 -\n".to_string());
    assert_eq!(listed(&["list", "-", "--clocks", "0"], P10), none);
    let many = (Some(0), "LIMIT 100000 100005 -\n".to_string());
    assert_eq!(listed(&["run", "-", "--clocks", "100000"], P10), many);
}

/// Case P8: 21, with exit status 1 and words.
#[test]
fn stuck() {
    let words = "cantaribol: standard input: rule 0 is stuck: wrong kind of value (number 21), \
                 after 0 clocks that fired\n";
    let said = said_of(&["list", "-"], NUMBER_GUARD);
    assert_eq!((said.status, &said.err[..]), (Some(1), words));
    assert_eq!(said.out, "0 S\nSTUCK 0 0 21 5 -\n");
    let said = said_of(&["run", "-", "--clocks", "2"], NUMBER_GUARD);
    assert_eq!((said.status, &said.err[..]), (Some(1), words));
    assert_eq!(said.out, "STUCK 0 0 21 5 -\n");
}

/// Random designs, as the second program lists them.
#[test]
fn as_the_second_program() {
    let mut endings = [0; 3];
    for index in 0..60 {
        let file = nth_design(3, index);
        let mut expected = Vec::new();
        let input = [&7u32.to_le_bytes(), &file[..]].concat();
        second::lister(&input, &mut expected).expect("a list takes all");
        let expected = String::from_utf8(expected).expect("plain letters");
        let (_, out) = listed(&["list", "-", "--clocks", "7"], &file);
        assert_eq!(out, expected, "{file:02X?}");
        for (seen, word) in endings.iter_mut().zip(["LIMIT", "QUIET", "STUCK"]) {
            *seen += u32::from(out.contains(word));
        }
    }
    assert!(endings.iter().all(|seen| *seen > 0), "{endings:?}");
}
