//! `check`.

mod common;
use common::*;
use generator::bundle::bundle;
use std::fs;
use std::path::{Path, PathBuf};

#[test]
fn bundled_designs_pass() {
    for design in bundle() {
        let path = designs().join(design.name).with_extension("hex");
        let said = said(&["check".as_ref(), path.as_os_str()]);
        assert_eq!((said.status, &said.err[..]), (Some(0), ""));
        assert!(said.out.starts_with("PASSED "), "{}", said.out);
    }
    let said = said_of(&["check", "-"], P10);
    let line = "PASSED 2 instances, 0 methods, 1 rules, 1 scheduled\n";
    assert_eq!(said.out, line);
}

/// Case P8, by the check.
#[test]
fn a_number_as_guard_fails() {
    let said = said_of(&["check", "-"], NUMBER_GUARD);
    assert_eq!((said.status, &said.out[..]), (Some(1), "FAILED 21 8\n"));
    let words = "cantaribol: standard input: the check fails: wrong kind of value in rule 0, \
                 at offset 8 (number 21, place 8)\n";
    assert_eq!(said.err, words);
}

#[test]
fn the_line_of_a_hex_text_is_told() {
    let pairs: Vec<String> = NUMBER_GUARD.iter().map(|b| format!("{b:02X}\n")).collect();
    let said = said_of(&["check", "-"], pairs.concat().as_bytes());
    assert_eq!((said.status, &said.out[..]), (Some(1), "FAILED 21 8\n"));
    assert!(said.err.ends_with(", line 9 of the text\n"), "{}", said.err);
}

/// A method that gives a truth and is declared to give a number.
#[test]
fn a_method_that_fails() {
    let text = "instance 0: UM\ninstance 1: UM\n  method 0 (): V, Num\n    1\n  \
                method 1 (): V, Num\n    true\nschedule:\n";
    let said = said_of(&["check", "-"], text.as_bytes());
    assert_eq!((said.status, &said.out[..]), (Some(1), "FAILED 21 16\n"));
    let words = "cantaribol: standard input: the check fails: wrong kind of value in method 1 of \
                 instance 1, at offset 16 (number 21, place 16), line 5 of the text\n";
    assert_eq!(said.err, words);
}

/// Which entry, which rule, and what is wrong with it.
#[test]
fn a_schedule_that_is_refused() {
    let rules =
        "instance 0: UM\n  rule 0\n    guard\n      true\n    body\n      display\n        \
                 7\n";
    for (entries, words) in [
        (
            "0 0",
            "entry 1 (from 0) names rule 0, which entry 0 names before it",
        ),
        (
            "0 4",
            "entry 1 (from 0) names rule 4, which is missing: there is rule 0 only",
        ),
    ] {
        let text = format!("{rules}schedule: {entries}\n");
        let said = said_of(&["check", "-"], text.as_bytes());
        assert_eq!((said.status, &said.out[..]), (Some(1), "REFUSED 8 14\n"));
        let all = "cantaribol: standard input: refused: the schedule at offset 14 names a missing \
                   rule, or one twice (number 8, place 14)";
        assert_eq!(said.err, format!("{all}: {words}, line 8 of the text\n"));
    }
}

/// A folder with a design that passes, one that fails, one that is refused
/// and a text that is none.
fn folder(name: &str) -> PathBuf {
    let folder = empty_folder(name);
    for (name, file) in [
        ("passes", P10),
        ("fails", NUMBER_GUARD),
        ("refused", &P10[..20]),
        ("none", b"Lorem ipsum"),
    ] {
        fs::write(folder.join(name), file).expect("a file");
    }
    folder
}

fn check_in(folder: &Path, files: &[&str]) -> Said {
    let mut check = command();
    let output = check.arg("check").args(files).current_dir(folder).output();
    output.expect("it runs").into()
}

/// A line each, in order; the worst decides.
#[test]
fn several_files() {
    let folder = folder("several");
    let passed = "PASSED 2 instances, 0 methods, 1 rules, 1 scheduled\n";
    let said = check_in(&folder, &["passes", "./passes"]);
    assert_eq!((said.status, &said.err[..]), (Some(0), ""));
    assert_eq!(said.out, format!("passes: {passed}./passes: {passed}"));
    let said = check_in(&folder, &["refused", "passes", "fails"]);
    assert_eq!(said.status, Some(1));
    let lines = format!("refused: REFUSED 2 8\npasses: {passed}fails: FAILED 21 8\n");
    assert_eq!(said.out, lines);
    let words: Vec<&str> = said.err.lines().collect();
    assert_eq!(words.len(), 2);
    assert!(words[0].starts_with("cantaribol: refused: refused: the record"));
    assert!(words[1].starts_with("cantaribol: fails: the check fails: wrong kind"));
    // One file has no name in front.
    assert_eq!(check_in(&folder, &["fails"]).out, "FAILED 21 8\n");
}

/// A file that cannot be read is worse than one that fails, and the others
/// are checked all the same.
#[test]
fn several_files_at_fault() {
    let folder = folder("several-at-fault");
    let said = check_in(&folder, &["missing", "none", "fails", "passes"]);
    assert_eq!(said.status, Some(2));
    let lines: Vec<&str> = said.out.lines().collect();
    assert_eq!(lines.len(), 2);
    assert_eq!(lines[0], "fails: FAILED 21 8");
    assert!(lines[1].starts_with("passes: PASSED "));
    let words: Vec<&str> = said.err.lines().collect();
    assert_eq!(words.len(), 3);
    assert!(words[0].starts_with("cantaribol: missing: "));
    assert!(words[1].starts_with("cantaribol: none: line 1, column 1: neither hex pairs"));
    assert!(words[2].starts_with("cantaribol: fails: the check fails"));
}
