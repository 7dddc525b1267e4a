//! `show`, and what all commands say of a file that is no design.

mod common;
use common::*;
use generator::bundle::bundle;

/// By docs/FORMAT.md, which takes the file apart byte by byte.
const P10_SHOWN: &str = "\
33 bytes: 2 instances, 0 methods, 1 rules, 1 scheduled
offset
     0  instance 0: RG, starts at 5
     6  instance 1: UM
     8    rule 0, entry 0 of the schedule
    12      guard
    12        true
    14      body
    14        call 0.write
    18          plus
    20            call 0.read
    24            1
    29  schedule: 0
";

fn shown(input: &[u8]) -> String {
    let said = said_of(&["show", "-"], input);
    assert_eq!((said.status, &said.err[..]), (Some(0), ""));
    said.out
}

#[test]
fn p10_by_its_bytes() {
    assert_eq!(shown(P10), P10_SHOWN);
}

/// The same design as text, with capital and small digits and no spaces.
#[test]
fn hex_is_the_same() {
    let pairs: String = P10.iter().map(|byte| format!("{byte:02X} ")).collect();
    let small: String = P10.iter().map(|byte| format!("{byte:02x}")).collect();
    let commented = format!("# P10\n\n{pairs}# the end\n");
    for text in [pairs, small, commented] {
        assert_eq!(shown(text.as_bytes()), P10_SHOWN);
    }
    let stored = designs().join("p10.hex");
    assert_eq!(said(&["show".as_ref(), stored.as_os_str()]).out, P10_SHOWN);
}

/// What is printed is read again: assembly, which all commands take.
#[test]
fn assembly_is_the_same() {
    assert_eq!(shown(P10_SHOWN.as_bytes()), P10_SHOWN);
    for design in bundle() {
        let name = design.name;
        let text = shown(stored(name, "hex").as_bytes());
        assert_eq!(shown(text.as_bytes()), text, "{name}");
        let expected = stored(name, "expected");
        let clocks = (expected.lines().count() - 1).to_string();
        let said = said_of(&["list", "-", "--clocks", &clocks], text.as_bytes());
        assert_eq!((said.status, said.out), (Some(0), expected), "{name}");
    }
}

/// Written by hand, without offsets, and with a rule that can get stuck: the
/// line is told.
#[test]
fn assembly_by_hand() {
    let text =
        "instance 0: RG, starts at 5\ninstance 1: UM # the counter\n  rule 0\n    guard\n      \
                1 # no truth\n    body\n      call 0.write\n        2\nschedule: 0\n";
    let said = said_of(&["check", "-"], text.as_bytes());
    assert_eq!((said.status, &said.out[..]), (Some(1), "FAILED 21 8\n"));
    assert!(said.err.ends_with(", line 3 of the text\n"), "{}", said.err);
    let said = said_of(
        &["check", "-"],
        text.replace("    body", "    bodies").as_bytes(),
    );
    assert_eq!((said.status, &said.out[..]), (Some(2), ""));
    let message = "cantaribol: standard input: line 6, column 5: expected body, found bodies\n";
    assert_eq!(said.err, message);
}

/// What looks the same in an editor is the same design, or none: all commands
/// refuse a tab in front, and a line that is left of those it belongs with.
#[test]
fn indentation_is_what_it_looks_like() {
    for (from, to, message) in [
        (
            "    24            1",
            "    24\t          1",
            "line 12, column 7: a tab in the indentation: use spaces",
        ),
        (
            "    20            call",
            "\t          call",
            "line 11, column 1: a tab in the indentation: use spaces",
        ),
        (
            "    24            1",
            "    24           1",
            "line 12, column 18: this line belongs below line 10, whose other parts begin at \
             column 19",
        ),
        (
            "    29  schedule",
            "schedule",
            "line 13, column 1: this line belongs below no other, and such lines begin at column 9",
        ),
    ] {
        assert!(P10_SHOWN.contains(from), "{from}");
        for line_end in ["\n", "\r\n"] {
            let text = P10_SHOWN.replace(from, to).replace('\n', line_end);
            let said = said_of(&["check", "-"], text.as_bytes());
            assert_eq!((said.status, &said.out[..]), (Some(2), ""));
            assert_eq!(said.err, format!("cantaribol: standard input: {message}\n"));
        }
    }
    assert_eq!(shown(P10_SHOWN.replace('\n', "\r\n").as_bytes()), P10_SHOWN);
}

/// Every form of a record and of a call: ports, missing methods, parameters.
#[test]
fn forms() {
    let file = b"CR\x02\xFF\xFF\xFF\xFFUM\
                 MD\x02\x02\x02\x01\x02\x0D\0\x06\x03\x01\x07\x02\x08\x0A\0\x02\0\x09\x02\0\
                 RL\x0D\0\x02\x01\x05\x02\0\x0A\0\x07\0\x0A\x09\x03\0SC\0";
    let expected = "\
51 bytes: 2 instances, 1 methods, 1 rules, 0 scheduled
offset
     0  instance 0: CR of 2 ports, starts at -1
     7  instance 1: UM
     9    method 0 (local 0 Num, local 1 Bool): AV, Bool
    18      when: guard, body
    19        local 1
    21        block of 2
    23          let
    24            call 0.read 1
    28          do
    29            false
    31    rule 0, not scheduled
    35      guard
    35        true
    37      body
    37        if: condition, then, else
    38          false
    40          call 0.method 7
    44          call 9.method 3
    48  schedule:
";
    assert_eq!(shown(file), expected);
}

/// What the hex text of a bundled design says beside its bytes, the schedule
/// left out: offset, depth and words.
fn told_by_hex(text: &str) -> Vec<(usize, usize, String)> {
    let mut told = Vec::new();
    for line in text.lines().filter(|line| !line.starts_with('#')) {
        let Some((_, words)) = line.split_once("# ") else {
            continue;
        };
        let offset = words[..4].trim().parse().expect("an offset");
        let words = &words[5..];
        let depth = (words.len() - words.trim_start().len()) / 2;
        if words.starts_with("schedule") {
            break;
        }
        told.push((offset, depth, words.trim_start().to_string()));
    }
    told
}

fn told_by_show(text: &str) -> Vec<(usize, usize, String)> {
    let mut told = Vec::new();
    let mut in_rule = 0;
    for line in text.lines().skip(2) {
        let offset = line[..6].trim().parse().expect("an offset");
        let words = &line[8..];
        let depth = (words.len() - words.trim_start().len()) / 2;
        let words = words.trim_start();
        match words.split([',', ' ', ':']).next() {
            Some("schedule") => break,
            // Guard and body have a line of their own here.
            Some("guard" | "body") => {}
            Some("rule") => {
                in_rule = 1;
                told.push((offset, depth, words.to_string()));
            }
            Some("method" | "instance") => {
                in_rule = 0;
                told.push((offset, depth, words.to_string()));
            }
            _ => told.push((offset, depth - in_rule, words.to_string())),
        }
    }
    told
}

/// Names stand only in the hex text, so calls and heads are compared by
/// offset and depth, everything else by its words too.
#[test]
fn bundled_designs_as_their_text_says() {
    for design in bundle() {
        let name = design.name;
        let by_hex = told_by_hex(&stored(name, "hex"));
        let by_show = told_by_show(&shown(stored(name, "hex").as_bytes()));
        assert_eq!(by_hex.len(), by_show.len(), "{name}");
        for (hex, show) in by_hex.iter().zip(&by_show) {
            assert_eq!((hex.0, hex.1), (show.0, show.1), "{name}: {hex:?} {show:?}");
            let first = show.2.split(' ').next().unwrap_or("");
            match first {
                "call" | "instance" | "rule" | "method" => {}
                "local" | "let" => assert!(hex.2.starts_with(&show.2), "{name}: {hex:?} {show:?}"),
                _ => assert_eq!(hex.2, show.2, "{name}"),
            }
        }
    }
}

#[test]
fn refused_by_every_command() {
    let vcd = scratch("refused.vcd");
    let vcd = vcd.to_str().expect("a plain path");
    for words in [
        &["check", "-"][..],
        &["convert", "-", "-o", vcd, "--to", "hex"],
        &["convert", "-", "-o", "-", "--to", "bin"],
        &["list", "-"],
        &["run", "-", "--clocks", "5"],
        &["show", "-"],
        &["trace", "-", "--vcd", vcd],
    ] {
        let said = said_of(words, &P10[..20]);
        assert_eq!((said.status, &said.out[..]), (Some(1), "REFUSED 2 8\n"));
        let message = "cantaribol: standard input: refused: the record at offset 8 is cut short \
                       by the end of the file (number 2, place 8)\n";
        assert_eq!(said.err, message);
    }
    assert!(!std::path::Path::new(vcd).exists());
}

/// In a hex text the line is told too.
#[test]
fn refused_hex() {
    let text = "# cut\n52 47 05 00 00 00\n55 4D\n52 4C\n";
    let said = said_of(&["show", "-"], text.as_bytes());
    assert_eq!((said.status, &said.out[..]), (Some(1), "REFUSED 2 8\n"));
    assert!(said
        .err
        .ends_with("(number 2, place 8), line 4 of the text\n"));
}

/// A text is not cut where reading stops.
#[test]
fn a_text_that_is_too_long() {
    let mut text = P10.iter().map(|b| format!("{b:02X} ")).collect::<String>();
    text.push('#');
    text.push_str(&" ".repeat((16 << 20) - text.len()));
    assert_eq!(shown(text.as_bytes()), P10_SHOWN);
    text.push(' ');
    let said = said_of(&["show", "-"], text.as_bytes());
    assert_eq!((said.status, &said.out[..]), (Some(2), ""));
    let message = "line 1, column 16777217: a text over 16777216 bytes";
    assert_eq!(said.err, format!("cantaribol: standard input: {message}\n"));
}

/// No design at all: nothing, only comments, and far too much.
#[test]
fn refused_lengths() {
    let too_long = vec![0; 40_000];
    for (input, line) in [
        (&b""[..], "REFUSED 9 0\n"),
        (b"# nothing", "REFUSED 9 0\n"),
        (&too_long, "REFUSED 1 0\n"),
    ] {
        let said = said_of(&["show", "-"], input);
        assert_eq!((said.status, &said.out[..]), (Some(1), line));
    }
}
