//! `trace`: the dump is read again here, and says what the second program
//! says.

mod common;
use common::*;
use generator::bundle::bundle;
use generator::running::nth_design;
use second::{Clocked, Design, Instance, Runner};
use std::collections::HashMap;
use std::fs;

/// What stands in a dump: every signal's value from each time on.
struct Dump {
    /// By full name: the code and the bits.
    signals: HashMap<String, (String, usize)>,
    /// Times, with all values from then on by code.
    times: Vec<(u64, HashMap<String, String>)>,
}

impl Dump {
    /// A strict reading of what the standard allows.
    fn read(text: &str) -> Self {
        let (head, body) = text.split_once("$enddefinitions $end\n").expect("a head");
        assert_eq!(head.matches("$timescale 1 ns $end\n").count(), 1);
        assert!(body.starts_with("#0\n$dumpvars\n"));
        let mut dump = Dump {
            signals: HashMap::new(),
            times: Vec::new(),
        };
        dump.read_head(head);
        for line in body.lines() {
            dump.read_line(line);
        }
        dump
    }

    fn read_head(&mut self, head: &str) {
        let mut scopes: Vec<&str> = Vec::new();
        for line in head.lines() {
            let words: Vec<&str> = line.split_whitespace().collect();
            assert_eq!(words.last(), Some(&"$end"), "{line}");
            match words[..] {
                ["$scope", "module", name, _] => scopes.push(name),
                ["$upscope", _] => assert!(scopes.pop().is_some()),
                ["$var", kind, bits, code, name, .., _] => {
                    let bits: usize = bits.parse().expect("bits");
                    assert_eq!(kind, if bits == 32 { "integer" } else { "reg" });
                    let range = format!("[{}:0]", bits - 1);
                    let has_range = [3, 8].contains(&bits) && words[5] == range;
                    assert_eq!(words.len(), 6 + usize::from(has_range));
                    assert!([1, 3, 8, 32].contains(&bits));
                    let name = format!("{}.{name}", scopes.join("."));
                    let is_new = self.signals.values().all(|(other, _)| other != code);
                    assert!(is_new, "{code} stands twice");
                    let signal = (code.to_string(), bits);
                    assert!(self.signals.insert(name, signal).is_none());
                }
                ["$timescale", "1", "ns", _] | ["$version", ..] | ["$comment", ..] => {}
                _ => panic!("{line}"),
            }
        }
        assert!(scopes.is_empty());
    }

    fn read_line(&mut self, line: &str) {
        if let Some(time) = line.strip_prefix('#') {
            let time = time.parse().expect("a time");
            let latest = self.times.last().cloned();
            assert!(latest.as_ref().is_none_or(|(before, _)| *before < time));
            let values = latest.map(|(_, values)| values).unwrap_or_default();
            return self.times.push((time, values));
        }
        if line == "$dumpvars" || line == "$end" {
            return;
        }
        let (value, code) = match line.strip_prefix('b') {
            Some(rest) => rest.split_once(' ').expect("a code"),
            None => line.split_at(1),
        };
        assert!(value == "x" || value.bytes().all(|bit| b"01".contains(&bit)));
        let (_, bits) = self
            .signals
            .values()
            .find(|(known, _)| known == code)
            .expect(code);
        assert!(value.len() <= *bits && line.starts_with('b') == (*bits > 1));
        let (_, values) = self.times.last_mut().expect("a time before it");
        values.insert(code.to_string(), value.to_string());
    }

    /// A signal's value at a time; None is unknown.
    fn value(&self, time: u64, name: &str) -> Option<u32> {
        let (code, _) = self.signals.get(&format!("design.{name}")).expect(name);
        let before = self.times.iter().take_while(|(at, _)| *at <= time).last();
        let value = &before.expect("a time").1[code];
        match &value[..] {
            "x" => None,
            bits => Some(u32::from_str_radix(bits, 2).expect("bits")),
        }
    }
}

fn same_registers(dump: &Dump, time: u64, design: &Design, state: &[i32]) {
    for (number, instance) in design.instances.iter().enumerate() {
        let name = format!("registers.instance_{number}");
        match instance {
            Instance::Register { .. } => {
                let value = dump.value(time, &name).map(|bits| bits as i32);
                assert_eq!(value, Some(state[number]), "{name} at {time}");
            }
            Instance::User { .. } => {
                assert!(!dump.signals.contains_key(&format!("design.{name}")));
            }
        }
    }
}

/// A clock's fates, each as a letter, a number and whether it fired.
fn same_fates(dump: &Dump, time: u64, design: &Design, runner: &Runner) {
    let schedule = &design.schedule;
    for ((entry, rule), fate) in schedule.iter().enumerate().zip(&runner.fates) {
        let value = |name: String| dump.value(time, &format!("rules.{name}"));
        let letter = b"FUAEHS-"[*fate as usize];
        let shown = value(format!("entry_{entry}_rule_{rule}_letter"));
        assert_eq!(shown, Some(letter.into()), "entry {entry} at {time}");
        let shown = value(format!("rule_{rule}_fate"));
        assert_eq!(shown, Some(*fate as u32));
        let shown = value(format!("rule_{rule}_fired"));
        assert_eq!(shown, Some(u32::from(*fate == second::Fate::Fired)));
    }
}

/// The numbers of the signals for displays.
fn display_signals(dump: &Dump) -> Vec<usize> {
    let names = dump.signals.keys();
    let mut numbers: Vec<usize> = names
        .filter_map(|name| name.strip_prefix("design.displays.display_"))
        .map(|number| number.parse().expect("a number"))
        .collect();
    numbers.sort();
    numbers
}

/// A clock's displays, as far as there are signals; the rest is unknown.
fn same_displays(dump: &Dump, time: u64, displays: &[i32]) {
    let shown = dump.value(time, "displays.displays");
    assert_eq!(shown, Some(displays.len() as u32), "at {time}");
    for number in display_signals(dump) {
        let value = dump.value(time, &format!("displays.display_{number}"));
        let value = value.map(|bits| bits as i32);
        assert_eq!(value, displays.get(number).copied(), "{number} at {time}");
    }
}

/// The dump of so many clocks at most, against the second program.
fn says_the_same(dump: &Dump, file: &[u8], clocks: u32) {
    let design = second::read(file).expect("a design");
    let mut state = vec![0; design.instances.len()];
    second::start(&design, &mut state).expect("the right length");
    let mut runner = Runner::new(&design);
    let (mut time, mut most) = (0, 0);
    for clock in 0..clocks {
        for at in [time, time + 4] {
            same_registers(dump, at, &design, &state);
            assert_eq!(dump.value(at, "clk"), Some(1));
            assert_eq!(dump.value(at, "clock"), Some(clock));
        }
        assert_eq!(dump.value(time + 5, "clk"), Some(0));
        let answer = runner.clock(&mut state);
        for at in [time, time + 9] {
            same_fates(dump, at, &design, &runner);
            same_displays(dump, at, &runner.displays);
        }
        most = most.max(runner.displays.len());
        time += 10;
        if !matches!(answer, Clocked::Done { fired: true, .. }) {
            break;
        }
    }
    for at in [time, time + 10] {
        same_end(dump, at, &design, &state);
    }
    // As many signals as some clock has displays, but not any number.
    let expected: Vec<usize> = (0..most.min(64)).collect();
    assert_eq!(display_signals(dump), expected);
    // What stands at the end has to last, or no viewer shows it.
    assert_eq!(dump.times.last().map(|(last, _)| *last), Some(time + 10));
}

/// The final registers, and no clock: no rising edge, number, fate or
/// display.
fn same_end(dump: &Dump, time: u64, design: &Design, state: &[i32]) {
    same_registers(dump, time, design, state);
    assert_eq!(dump.value(time, "clk"), Some(0));
    assert_eq!(dump.value(time, "clock"), None);
    for (entry, rule) in design.schedule.iter().enumerate() {
        let value = |name: String| dump.value(time, &format!("rules.{name}"));
        assert_eq!(value(format!("entry_{entry}_rule_{rule}_letter")), None);
        assert_eq!(value(format!("rule_{rule}_fate")), None);
        assert_eq!(value(format!("rule_{rule}_fired")), None);
    }
    assert_eq!(dump.value(time, "displays.displays"), None);
    for number in display_signals(dump) {
        let name = format!("displays.display_{number}");
        assert_eq!(dump.value(time, &name), None);
    }
}

fn traced(file: &[u8], clocks: u32) -> (Option<i32>, Dump) {
    let clocks = clocks.to_string();
    let words = ["trace", "-", "--vcd", "-", "--clocks", &clocks];
    let said = said_of(&words, file);
    (said.status, Dump::read(&said.out))
}

#[test]
fn bundled_designs() {
    for design in bundle() {
        let file = design.text.bytes();
        let (status, dump) = traced(&file, 25);
        assert_eq!(status, Some(0), "{}", design.name);
        says_the_same(&dump, &file, 25);
    }
}

#[test]
fn random_designs() {
    let (mut fine, mut stuck) = (0, 0);
    for index in 0..60 {
        let file = nth_design(4, index);
        if second::read(&file).is_err() {
            continue;
        }
        let (status, dump) = traced(&file, 6);
        says_the_same(&dump, &file, 6);
        match status {
            Some(0) => fine += 1,
            Some(1) => stuck += 1,
            other => panic!("{other:?}"),
        }
    }
    assert!(fine > 5 && stuck > 5, "{fine} {stuck}");
}

/// No clocks: the start values, and nothing that rises.
#[test]
fn no_clocks() {
    let (status, dump) = traced(P10, 0);
    assert_eq!(status, Some(0));
    says_the_same(&dump, P10, 0);
    assert_eq!(dump.value(0, "registers.instance_0"), Some(5));
}

/// As many signals as there can be, so that codes of two letters are used.
#[test]
fn a_large_design() {
    let mut file = b"RG\x07\0\0\0".repeat(63);
    file.extend(b"UM");
    for rule in 0..64 {
        // Rule k writes k to register k; the last one to register 0 again.
        let register = rule % 63;
        let body = [2, 1, 10, register, 1, 1, 1, rule, 0, 0, 0];
        file.extend([b"RL", &[body.len() as u8, 0][..], &body].concat());
    }
    file.extend(b"SC\x40");
    file.extend(0..64);
    let (status, dump) = traced(&file, 3);
    assert_eq!(status, Some(0));
    assert_eq!(dump.signals.len(), 2 + 63 + 3 * 64 + 1);
    says_the_same(&dump, &file, 3);
    // The last one is a second write of register 0 in the clock.
    assert_eq!(dump.value(0, "rules.rule_63_fate"), Some(4));
    assert_eq!(dump.value(10, "registers.instance_62"), Some(62));
}

/// The listing that the queue's source gives: `4 FU 4` and `5 UU`.
#[test]
fn displays_and_letters_of_the_queue() {
    let file = fs::read(designs().join("queue-drain-first.bin")).expect("a design");
    let (_, dump) = traced(&file, 20);
    says_the_same(&dump, &file, 20);
    let letters = |clock: u64| {
        // Drain is rule 1 and goes first.
        ["entry_0_rule_1_letter", "entry_1_rule_0_letter"].map(|name| {
            let letter = dump.value(10 * clock, &format!("rules.{name}"));
            letter.expect("a letter") as u8
        })
    };
    assert_eq!([0, 4, 5].map(letters), [*b"FF", *b"FU", *b"UU"]);
    let shown = |clock: u64| {
        ["displays", "display_0", "display_1"]
            .map(|name| dump.value(10 * clock, &format!("displays.{name}")))
    };
    assert_eq!(shown(0), [Some(2), Some(0), Some(101)]);
    assert_eq!(shown(3), [Some(2), Some(3), Some(104)]);
    assert_eq!(shown(4), [Some(1), Some(4), None]);
    assert_eq!(shown(5), [Some(0), None, None]);
    assert_eq!(shown(6), [None; 3]);
}

/// Three rules, the last first, of 32 displays each: more than have signals.
#[test]
fn many_displays() {
    let mut file = b"UM".to_vec();
    for rule in 0..3u8 {
        let mut body = vec![2, 1, 7, 32];
        for number in 0..32 {
            // The display of a number below 0.
            body.extend([9, 11, 1, 32 * rule + number, 0xFF, 0xFF, 0xFF]);
        }
        file.extend([b"RL", &[body.len() as u8, 0][..], &body].concat());
    }
    file.extend(b"SC\x03\x02\x00\x01");
    let (status, dump) = traced(&file, 3);
    assert_eq!(status, Some(0));
    says_the_same(&dump, &file, 3);
    assert_eq!(dump.value(20, "displays.displays"), Some(96));
    let first = dump.value(20, "displays.display_0").map(|bits| bits as i32);
    assert_eq!(first, Some(64 - 256));
    assert_eq!(dump.signals.len(), 2 + 3 * 3 + 1 + 64);
}

/// Rules stand in schedule order, and the dump says how to read it.
#[test]
fn order_and_comments() {
    let file = b"UMRL\x07\0\x02\x01\x07\x01\x08\x02\0RL\x07\0\x02\0\x07\x01\x08\x02\0SC\x02\x01\0";
    let text = said_of(&["trace", "-", "--vcd", "-"], file).out;
    let names = text.lines().filter_map(|line| line.strip_prefix("$var "));
    let names: Vec<&str> = names.filter_map(|var| var.split(' ').nth(3)).collect();
    let rules = [
        "entry_0_rule_1_letter",
        "rule_1_fate",
        "rule_1_fired",
        "entry_1_rule_0_letter",
        "rule_0_fate",
        "rule_0_fired",
    ];
    assert_eq!(names[2..8], rules);
    let comments = text.lines().filter(|line| line.starts_with("$comment "));
    let comments: String = comments.collect();
    for fate in [
        "F fired",
        "E conflict with",
        "- not reached",
        "0 fired",
        "6 not reached",
    ] {
        assert!(comments.contains(fate), "{fate}");
    }
    assert!(comments.contains("ASCII") && comments.contains("display_0"));
}

#[test]
fn to_a_file() {
    let path = scratch("trace.vcd");
    let hex = designs().join("gcd.hex");
    let words = [
        "trace".as_ref(),
        hex.as_os_str(),
        "--vcd".as_ref(),
        path.as_os_str(),
    ];
    let said = said(&words);
    assert_eq!(
        (said.status, &said.out[..], &said.err[..]),
        (Some(0), "", "")
    );
    let dump = Dump::read(&fs::read_to_string(&path).expect("the dump"));
    fs::remove_file(&path).expect("the dump");
    // Document 000, section 8.1: x is 8 and y is 0 when clock 6 begins.
    assert_eq!(dump.value(60, "registers.instance_1"), Some(8));
    assert_eq!(dump.value(60, "registers.instance_2"), Some(0));
    // finish, rule 3, fires in clock 6 only; twenty clocks end at the quiet 8th.
    let fired = |clock: u64| dump.value(10 * clock, "rules.rule_3_fired");
    let all: Vec<Option<u32>> = (0..8).map(fired).collect();
    assert_eq!(all, [0, 0, 0, 0, 0, 0, 1, 0].map(Some));
    assert_eq!(dump.value(75, "clock"), Some(7));
    assert_eq!(dump.value(80, "clock"), None);
}

#[test]
fn a_file_that_cannot_be_written() {
    let hex = designs().join("gcd.hex");
    let path = scratch("no-such-folder/trace.vcd");
    let words = [
        "trace".as_ref(),
        hex.as_os_str(),
        "--vcd".as_ref(),
        path.as_os_str(),
    ];
    let said = said(&words);
    assert_eq!((said.status, &said.out[..]), (Some(2), ""));
    assert!(said.err.contains("no-such-folder"), "{}", said.err);
}
