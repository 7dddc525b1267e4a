//! Texts that stand for designs, and texts that do not.

use super::*;
use crate::showing::show;
use cantaribol::Design;
use generator::bundle::bundle;
use generator::nth_file;
use generator::running::nth_design;
use generator::samples::samples;

/// Case P10, as one would write it.
const P10: &str = "
# counts up from 5
instance 0: RG, starts at 5
instance 1: UM
  rule 0
    guard
      true
    body
      call 0.write
        plus
          call 0.read
          1
schedule: 0
";

fn assembled(text: &str) -> Vec<u8> {
    assert!(is_assembly(text), "{text}");
    parse(text).expect(text).bytes
}

#[test]
fn p10_by_its_words() {
    let file = b"RG\x05\0\0\0UMRL\x11\0\x02\x01\x0A\0\x01\x01\x04\0\
                 \x0A\0\0\0\x01\x01\0\0\0SC\x01\0";
    assert_eq!(assembled(P10), file);
    let lines = parse(P10).expect("a text").lines;
    assert_eq!(lines.len(), file.len());
    let of = |offset: usize| lines[offset];
    assert_eq!([0, 6, 8, 12, 14, 24, 29].map(of), [3, 4, 5, 7, 9, 12, 13]);
}

fn shown(file: &[u8]) -> String {
    let design = Design::read(file).expect("a design");
    let mut text = Vec::new();
    show(&design, &mut text).expect("room");
    String::from_utf8(text).expect("plain letters")
}

/// The bytes of a design are those of what `show` prints of it.
#[track_caller]
fn is_itself_again(file: &[u8]) {
    let text = shown(file);
    assert_eq!(assembled(&text), file, "{text}");
}

#[test]
fn designs_are_themselves_again() {
    bundle()
        .iter()
        .for_each(|design| is_itself_again(&design.text.bytes()));
    samples()
        .iter()
        .for_each(|plan| is_itself_again(&plan.file()));
}

#[test]
fn random_designs_are_themselves_again() {
    let mut read = 0;
    for index in 0..1500 {
        for file in [nth_file(12, index), nth_design(12, index)] {
            if Design::read(&file).is_ok() {
                is_itself_again(&file);
                read += 1;
            }
        }
    }
    assert!(read > 1500, "{read}");
}

/// What the reading refuses is written out all the same.
#[test]
fn a_design_that_is_refused() {
    assert_eq!(
        assembled("rule 0\n guard\n  true\n body\n  false"),
        b"RL\x04\0\x02\x01\x02\0"
    );
    assert_eq!(
        assembled("instance 0: CR of 9 ports, starts at 1"),
        b"CR\x09\x01\0\0\0"
    );
    assert_eq!(assembled("schedule: 0 0 99"), b"SC\x03\0\0\x63");
}

#[track_caller]
fn at_fault(body: &str, fault: &str) {
    let text = format!("instance 0: UM\n rule 0\n  guard\n   true\n  body\n   {body}\nschedule:\n");
    assert_eq!(parse(&text), Err(fault.to_string()), "{text}");
}

#[test]
fn unknown_expressions() {
    let all = "an expression: a number, true, false, local N, plus, minus, equal, less, and, or, \
               not, if, when, block, call or display";
    for found in ["times", "let", "true false", "Plus"] {
        at_fault(
            found,
            &format!("line 6, column 4: expected {all}, found {found}"),
        );
    }
    let number = "a number from -2147483648 to 2147483647";
    for found in ["2147483648", "-2147483649", "0x10", "1e3"] {
        at_fault(
            found,
            &format!("line 6, column 4: expected {number}, found {found}"),
        );
    }
}

#[test]
fn parts_at_fault() {
    for (body, fault) in [
        ("plus\n    1", "4: expected 2 parts below plus, found 1"),
        ("true\n    1", "4: expected 0 parts below true, found 1"),
        ("not", "4: expected 1 part below not, found 0"),
        ("if\n    1", "4: expected 3 parts below if, found 1"),
        (
            "if local 0",
            "4: expected if alone, and its parts below it, found if local 0",
        ),
        (
            "plus 1 2",
            "4: expected plus alone, and its parts below it, found plus 1 2",
        ),
        ("local", "4: expected local N, found local"),
        (
            "local 256",
            "10: expected a number from 0 to 255, found 256",
        ),
        (
            "block of 2\n    do\n     1",
            "4: expected block or block of 1, found block of 2",
        ),
    ] {
        at_fault(body, &format!("line 6, column {fault}"));
    }
    at_fault(
        "1\n   2",
        "line 5, column 3: expected 1 part below body, found 2",
    );
    at_fault(
        "block\n    1",
        "line 7, column 5: expected let or do, found 1",
    );
    at_fault(
        "block\n    do",
        "line 7, column 5: expected 1 part below do, found 0",
    );
}

#[test]
fn calls_at_fault() {
    for found in ["call", "call 0", "call 0 look", "call 0 read 1 2"] {
        let what = "call I.read, call I.write, call I.read P, call I.write P or call I.method M";
        at_fault(
            found,
            &format!("line 6, column 4: expected {what}, found {found}"),
        );
    }
    for (body, fault) in [
        ("call x.read", "9: expected a number from 0 to 255, found x"),
        (
            "call  0.method -1",
            "19: expected a number from 0 to 255, found -1",
        ),
        (
            "call 0.read 128",
            "16: expected a port from 0 to 127, found 128",
        ),
        (
            "call 0.write\tx",
            "17: expected a port from 0 to 127, found x",
        ),
    ] {
        at_fault(body, &format!("line 6, column {fault}"));
    }
}

#[test]
fn too_many() {
    let many = format!("call 0.method 0{}", "\n    1".repeat(256));
    let fault = "expected at most 255 parts below call 0.method 0, found 256";
    at_fault(&many, &format!("line 6, column 4: {fault}"));
    let row = "\n      do\n       1".repeat(255);
    let rows = format!("block{}", format!("\n    do\n     block{row}").repeat(50));
    let fault = "expected at most 65,535 bytes below rule 0, found 76654";
    at_fault(&rows, &format!("line 2, column 2: {fault}"));
    let entries = format!("schedule:{}", " 0".repeat(256));
    let fault = parse(&entries).expect_err("too many");
    let cut = format!("schedule:{} ..", " 0".repeat(15));
    let words = format!("expected at most 255 entries in {cut}, found 256");
    assert_eq!(fault, format!("line 1, column 1: {words}"));
}

#[track_caller]
fn record_at_fault(text: &str, fault: &str) {
    assert_eq!(parse(text), Err(fault.to_string()), "{text}");
}

#[test]
fn instances_at_fault() {
    for text in ["instance", "instance 0", "instance 0 XX", "instance 0 RG 5"] {
        let what = "instance N: RG, starts at S; instance N: CR of P ports, starts at S; \
                    or instance N: UM";
        record_at_fault(
            text,
            &format!("line 1, column 1: expected {what}, found {text}"),
        );
    }
    for (text, fault) in [
        (
            "instance 1: UM",
            "10: expected 0, the next number in order, found 1",
        ),
        (
            "instance 0: RG, starts at x",
            "27: expected a number from -2147483648 to 2147483647, found x",
        ),
        (
            "instance 0: CR of 256 ports, starts at 1",
            "19: expected a number from 0 to 255, found 256",
        ),
    ] {
        record_at_fault(text, &format!("line 1, column {fault}"));
    }
}

#[test]
fn methods_and_rules_at_fault() {
    for text in ["method", "method 0", "method 0 Num V Num"] {
        let what = "method N (local 0 Num, local 1 Bool): V, A or AV, then Void, Num or Bool";
        record_at_fault(
            text,
            &format!("line 1, column 1: expected {what}, found {text}"),
        );
    }
    let fault = "rule N, then nothing, not scheduled, or entry E of the schedule";
    record_at_fault(
        "rule 0, first",
        &format!("line 1, column 1: expected {fault}, found rule 0, first"),
    );
}

#[test]
fn parts_of_records_at_fault() {
    for (text, fault) in [
        (
            "rule 0\n true",
            "line 1, column 1: expected a guard and a body below rule 0, found 1",
        ),
        (
            "rule 0\n body\n guard",
            "line 2, column 2: expected guard, found body",
        ),
        (
            "rule 0\n guard\n bodies",
            "line 3, column 2: expected body, found bodies",
        ),
        (
            "method 0 (): B, Num\n 1",
            "line 1, column 14: expected a sort of method: V, A or AV, found B",
        ),
        (
            "method 0 (): V, Nut\n 1",
            "line 1, column 17: expected a kind: Void, Num or Bool, found Nut",
        ),
        (
            "method 0 (local 1 Num): V, Num\n 1",
            "line 1, column 17: expected 0, the next number in order, found 1",
        ),
        (
            "method 0 (): V, Num",
            "line 1, column 1: expected 1 part below method 0 (): V, Num, found 0",
        ),
    ] {
        record_at_fault(text, fault);
    }
}

#[test]
fn schedules_at_fault() {
    let record = "expected a record: instance, method, rule or schedule";
    record_at_fault(
        "schedule: 1 256",
        "line 1, column 13: expected a number from 0 to 255, found 256",
    );
    record_at_fault(
        "schedule: 0\nwhatever",
        &format!("line 2, column 1: {record}, found whatever"),
    );
    record_at_fault(
        "schedule: 0\n  1",
        &format!("line 2, column 3: {record}, found 1"),
    );
}

/// Two texts that look alike are not to mean different designs.
#[test]
fn a_tab_is_no_indentation() {
    let tabbed = P10.replace("          1", "\t  1");
    assert!(is_assembly(&tabbed));
    let fault = "line 12, column 1: a tab in the indentation: use spaces";
    assert_eq!(parse(&tabbed), Err(fault.to_string()));
    let askew = P10.replace("          1", "         1");
    let fault = "line 12, column 10: this line belongs below line 10, whose other parts begin \
                 at column 11";
    assert_eq!(parse(&askew), Err(fault.to_string()));
    assert_eq!(assembled(&P10.replace('\n', "\r\n")), assembled(P10));
}

/// What `show` prints with a word that is no record is still no hex.
#[test]
fn a_heading_is_assembly() {
    let text = "3 bytes: 0 instances\noffset\n     0  Schedule:\n";
    assert!(is_assembly(text));
    let fault = "line 3, column 9: expected a record: instance, method, rule or schedule, \
                 found Schedule:";
    assert_eq!(parse(text), Err(fault.to_string()));
}

/// The line that a fault names; its column is there too.
fn line_of(fault: &str) -> Option<usize> {
    let (line, rest) = fault.strip_prefix("line ")?.split_once(", column ")?;
    let (column, _) = rest.split_once(": ")?;
    column.parse::<usize>().ok().filter(|column| *column > 0)?;
    line.parse().ok()
}

/// Whatever is done to a line, a fault says where it is.
#[test]
fn every_fault_has_its_place() {
    let (mut faults, mut read) = (0, 0);
    for design in bundle() {
        let text = shown(&design.text.bytes());
        let lines: Vec<&str> = text.lines().collect();
        for (at, line) in lines.iter().enumerate() {
            let changed = [
                "x".to_string(),
                ":".to_string(),
                format!(" {line}"),
                format!("{line} 999"),
                format!("{line}\n{line}"),
                line.replacen("  ", "", 1),
                line.replacen("  ", "\t", 1),
                line.replace('0', "é"),
                line.split_at(line.len() - 1).0.to_string(),
            ];
            for changed in &changed {
                let all = [&lines[..at], &[changed], &lines[at + 1..]].concat();
                match crate::text::parse(&all.join("\n")) {
                    Ok(_) => read += 1,
                    Err(fault) => {
                        let line = line_of(&fault).expect(&fault);
                        assert!((1..=lines.len() + 1).contains(&line), "{fault}");
                        faults += 1;
                    }
                }
            }
        }
    }
    assert!(faults > 1000 && read > 1000, "{faults} {read}");
}

#[test]
fn hex_is_no_assembly() {
    for text in ["", "# instance 0: UM", "52 47", "0 52", "5247 # rule 0"] {
        assert!(!is_assembly(text), "{text}");
    }
}
