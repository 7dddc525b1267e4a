//! The command line: help, and what is at fault in it.

mod common;
use common::*;

const COMMANDS: [&str; 6] = ["check", "convert", "list", "run", "show", "trace"];

#[test]
fn help_of_all() {
    for words in [&["--help"][..], &["-h"], &["help"], &["help", "--help"]] {
        let said = said(words);
        assert_eq!((said.status, &said.err[..]), (Some(0), ""));
        for name in COMMANDS {
            assert!(said.out.contains(&format!("  cantaribol {name} FILE")));
        }
        let counts = "Clock counts up to 4,294,967,295 are accepted";
        assert!(said.out.contains(counts));
        assert!(said.out.contains("INTERRUPTED") && said.out.contains("130 interrupted"));
    }
}

#[test]
fn help_of_each() {
    for name in COMMANDS {
        let whole = said(&["help", name]);
        assert_eq!((whole.status, &whole.err[..]), (Some(0), ""), "{name}");
        assert!(whole.out.starts_with(&format!("cantaribol {name} FILE")));
        assert!(whole.out.contains("Exit status: 0"));
        for words in [&[name, "--help"][..], &[name, "some file", "-h"]] {
            assert_eq!(said(words), whole, "{words:?}");
        }
    }
    for name in ["list", "run", "trace"] {
        let help = said(&["help", name]).out;
        assert!(help.contains("4,294,967,295"), "{name}");
        assert!(help.contains("130 interrupted"), "{name}");
        assert_eq!(help.contains("INTERRUPTED"), name != "trace", "{name}");
    }
}

#[test]
fn the_version() {
    for word in ["--version", "-V"] {
        let said = said(&[word]);
        assert_eq!((said.status, &said.err[..]), (Some(0), ""));
        assert_eq!(said.out, "cantaribol 0.1.0\n");
    }
}

#[track_caller]
fn at_fault(words: &[&str], message: &str) {
    let said = said(words);
    assert_eq!((said.status, &said.out[..]), (Some(2), ""), "{words:?}");
    assert!(said.err.contains(message), "{words:?}: {}", said.err);
    assert!(said.err.contains("cantaribol --help"), "{words:?}");
}

#[test]
fn command_lines_at_fault() {
    at_fault(&[], "a command is missing");
    at_fault(&["simulate"], "no command: simulate");
    at_fault(&["list "], "no command: list ");
    at_fault(&["help", "simulate"], "no command: simulate");
    at_fault(&["help", "list", "run"], "help: more than one command");
    at_fault(&["-x"], "no option -x");
    at_fault(&["--speed", "list"], "no option --speed");
    for name in COMMANDS {
        at_fault(&[name], &format!("{name}: FILE is missing"));
        for option in ["--speed", "-x", "--speed=3", "--=", "--help=list", "---"] {
            let message = format!("{name}: no option {option}\n");
            at_fault(&[name, option, "a"], &message);
        }
    }
    for name in ["convert", "list", "run", "show", "trace"] {
        at_fault(&[name, "a", "b"], &format!("{name}: more than one file"));
        at_fault(
            &[name, "a", "--", "b"],
            &format!("{name}: more than one file"),
        );
    }
    at_fault(
        &["check", "-", "a", "-"],
        "check: standard input stands twice",
    );
    at_fault(&["check", "a", "--clocks", "3"], "no option --clocks");
    at_fault(&["show", "a", "--vcd=b"], "no option --vcd=b");
    at_fault(&["run", "a"], "run: --clocks N is missing");
    at_fault(&["trace", "a"], "trace: --vcd OUT is missing");
    at_fault(&["list", "a", "--clocks"], "--clocks wants a value");
    at_fault(&["trace", "a", "--vcd"], "--vcd wants a value");
    let twice = ["list", "a", "--clocks", "1", "--clocks=1"];
    at_fault(&twice, "--clocks stands twice");
}

#[test]
fn forms_at_fault() {
    at_fault(&["convert", "a"], "convert: -o OUT is missing");
    at_fault(&["convert", "a", "-o"], "-o wants a value");
    at_fault(&["convert", "a", "-o=b.hex"], "convert: no option -o=b.hex");
    at_fault(
        &["convert", "a", "-o", "-"],
        "-o - wants --to asm, hex or bin",
    );
    for out in ["b", "b.", "b.vcd", "bin", ".bin", "b.hex/c", "b.BIN"] {
        let message = "the ending is not .asm, .txt, .hex or .bin, and there is no --to";
        at_fault(&["convert", "a", "-o", out], message);
    }
    for form in ["txt", "", "binary", "HEX"] {
        let message = format!("--to: not asm, hex or bin: {form}\n");
        at_fault(&["convert", "a", "-o", "b.hex", "--to", form], &message);
    }
}

/// Any unsigned number of 32 bits, and nothing else.
#[test]
fn clock_counts_at_fault() {
    for count in ["-1", "+1", "1.5", "0x10", "", " 1", "many", "\u{663}"] {
        let message = format!("--clocks: no clock count from 0 to 4294967295: {count}\n");
        at_fault(&["list", "a", "--clocks", count], &message);
        at_fault(&["list", "a", &format!("--clocks={count}")], &message);
    }
    for count in ["4294967296", "99999999999999999999999"] {
        let message = format!("--clocks: {count} is over 4294967295\n");
        at_fault(&["run", "a", "--clocks", count], &message);
    }
}

/// A value after =, and file names that begin with -.
#[test]
fn joined_values_and_the_end_of_options() {
    let spaced = said_of(&["list", "-", "--clocks", "3"], P10);
    assert_eq!(spaced.status, Some(0));
    assert_eq!(spaced.out.lines().count(), 4);
    for words in [
        &["list", "-", "--clocks=3"][..],
        &["list", "--clocks=3", "--", "-"],
        &["list", "--clocks", "00003", "-", "--"],
    ] {
        assert_eq!(said_of(words, P10), spaced, "{words:?}");
    }
    let largest = said_of(&["run", "-", "--clocks=4294967295"], b"SC\0");
    assert_eq!(largest.out, "QUIET 0\n");
    let dump = said_of(&["trace", "-", "--vcd=-"], P10);
    assert_eq!(dump, said_of(&["trace", "-", "--vcd", "-"], P10));
    assert_eq!(dump.status, Some(0));
    let folder = scratch("dashes");
    std::fs::create_dir_all(&folder).expect("a folder");
    std::fs::write(folder.join("--clocks"), P10).expect("a file");
    let output = command()
        .args(["check", "--", "--clocks"])
        .current_dir(&folder)
        .output();
    assert_eq!(output.expect("it runs").status.code(), Some(0));
}

/// A file that is not there is no fault of the command line.
#[test]
fn files_at_fault() {
    for words in [
        &["show", "no-such-file"][..],
        &["show", env!("CARGO_MANIFEST_DIR")],
    ] {
        let said = said(words);
        assert_eq!((said.status, &said.out[..]), (Some(2), ""));
        assert!(said.err.contains(words[1]), "{}", said.err);
        assert!(!said.err.contains("--help"));
    }
}

#[test]
fn texts_at_fault() {
    for (text, message) in [
        (
            "52 47 # a register\n05 00 0 00\n",
            "line 2, column 7: expected pairs of hex digits, found 0",
        ),
        (
            "\u{FEFF}# no design\n\n  Lorem ipsum\n",
            "line 3, column 3: neither hex pairs nor assembly: expected pairs of hex digits \
             or instance, method, rule or schedule, found Lorem",
        ),
        (
            "instance 0: UM\n  method 0 (): VA, Num\n    1\nschedule:\n",
            "line 2, column 16: expected a sort of method: V, A or AV, found VA",
        ),
    ] {
        let said = said_of(&["show", "-"], text.as_bytes());
        assert_eq!((said.status, &said.out[..]), (Some(2), ""));
        assert_eq!(said.err, format!("cantaribol: standard input: {message}\n"));
    }
}

/// A file that is one long word is not printed.
#[test]
fn a_long_word_at_fault() {
    let said = said_of(&["show", "-"], "x".repeat(1_000_000).as_bytes());
    assert_eq!((said.status, &said.out[..]), (Some(2), ""));
    assert!(said.err.len() < 300, "{} bytes", said.err.len());
}
