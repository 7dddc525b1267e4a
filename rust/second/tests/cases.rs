//! The cases of document 01, P1 to P10, and the hole named in the readings.

mod common;
use common::assembler::*;
use common::*;
use second::{check, clock, run, start, Clocked, Ending, Reason, Refusal, Run};

/// What one rule displays when it displays these values, Bools as 1 and 0.
fn displayed(value: Bytes) -> i32 {
    let file = File::new().um().rl(truth(true), display(value)).sc(&[0]);
    let design = reads_bytes(&file.bytes);
    let mut displays = vec![0; 4096];
    let answer = clock(&design, &mut [0], &mut [9; 64], &mut displays);
    let done = Clocked::Done {
        fired: true,
        displays: 1,
    };
    assert_eq!(answer, Ok(done));
    displays[0]
}

fn holds(condition: Bytes) -> bool {
    displayed(choose(condition, num(1), num(0))) == 1
}

#[test]
fn p1_to_p4() {
    assert_eq!(displayed(plus(num(2147483647), num(1))), -2147483648);
    assert_eq!(displayed(minus(num(-2147483648), num(1))), 2147483647);
    assert!(holds(less(num(3), num(5))));
    assert!(!holds(less(num(5), num(5))));
    assert!(holds(less(num(-2147483648), num(1))));
}

/// Two rules on a CR with two ports, in this order.
fn two_rules(first: Bytes, second: Bytes) -> Vec<u8> {
    let file = File::new().cr(2, 0).um();
    let file = file.rl(truth(true), first).rl(truth(true), second);
    file.sc(&[0, 1]).bytes
}

#[test]
fn p5() {
    let write = |port| write_port(0, port, num(7));
    let read = |port| display(read_port(0, port));
    lists(1, &two_rules(write(0), read(1)), &["0 FF 7", "LIMIT 1 7 -"]);
    lists(1, &two_rules(write(1), read(1)), &["0 FE", "LIMIT 1 7 -"]);
}

#[test]
fn p6() {
    let twice = block(&[act(write_port(0, 0, num(1))), act(write_port(0, 0, num(2)))]);
    let file = File::new().rg(5).um().rl(truth(true), twice).sc(&[0]);
    lists(3, &file.bytes, &["0 H", "QUIET 0 5 -"]);
}

#[test]
fn p7() {
    let both = block(&[act(write_port(0, 0, num(1))), act(display(read_port(0, 1)))]);
    let file = File::new().cr(2, 5).um().rl(truth(true), both).sc(&[0]);
    lists(3, &file.bytes, &["0 A", "QUIET 0 5 -"]);
}

#[test]
fn p8() {
    let file = File::new().um().rl(num(1), void()).sc(&[0]);
    lists(3, &file.bytes, &["0 S", "STUCK 0 0 21 -"]);
    let failure = Refusal {
        number: 21,
        place: 2,
    };
    assert_eq!(check(&reads_bytes(&file.bytes)), Err(failure));
}

#[test]
fn p9() {
    refused("", 9, 0);
    lists(0, &[], &["REFUSED 9 0"]);
}

#[test]
fn p10() {
    let file = hex(P10);
    assert_eq!(file.len(), 33);
    lists(3, &file, &["0 F", "1 F", "2 F", "LIMIT 3 8 -"]);
    let design = reads_bytes(&file);
    assert_eq!(check(&design), Ok(()));
    let mut state = [0, 77];
    assert_eq!(start(&design, &mut state), Ok(()));
    assert_eq!(state, [5, 77]);
    let limit = Run {
        ending: Ending::Limit,
        count: 3,
    };
    assert_eq!(run(&design, &mut state, 3), Ok(limit));
    assert_eq!(state, [8, 77]);
}

/// A method that gives a Bool though it declares Num: without the test of
/// the result in its own walk it would pass the check and then be stuck.
#[test]
fn the_hole_is_closed() {
    let file = hex(
        "55 4D 4D 44 00 01 00 02 00 02 01 55 4D 52 4C 07 00 02 01 0B 0A 00 00 00 \
         53 43 01 00",
    );
    let design = reads_bytes(&file);
    let failure = Refusal {
        number: 21,
        place: 2,
    };
    assert_eq!(check(&design), Err(failure));
    let answer = clock(&design, &mut [0; 2], &mut [9; 64], &mut [9; 4096]);
    let stuck = Clocked::Stuck {
        rule: 0,
        reason: Reason::WrongKind,
        displays: 0,
    };
    assert_eq!(answer, Ok(stuck));
}
