//! Every refusal of a file, by a file that document 01 refuses for it: the
//! case, the number, the place and the words.

use cantaribol::{Body, Design, Ending, Outcome, Reason, Refusal};

#[track_caller]
fn refused(file: &[u8], refusal: Refusal, number: u8, place: usize, words: &str) {
    assert_eq!(Design::read(file), Err(refusal));
    assert_eq!((refusal.number(), refusal.place()), (number, place));
    let end = format!(" (number {number}, place {place})");
    assert_eq!(refusal.to_string(), format!("{words}{end}"));
}

#[test]
fn refusals_of_the_file() {
    let too_long = [b'X'; 32_769];
    let words = "the file is over 32,768 bytes";
    refused(&too_long, Refusal::FileTooLong, 1, 0, words);
    let words = "the record at offset 2 is cut short by the end of the file";
    refused(b"UMRG\x05", Refusal::CutShort { record: 2 }, 2, 2, words);
    let words = "the record at offset 2 begins with an unknown mark";
    refused(b"UMXX", Refusal::UnknownMark { record: 2 }, 3, 2, words);
    let words = "at offset 3 stands a method or rule whose latest instance is no user module, \
                 or a byte after the schedule";
    refused(b"SC\0S", Refusal::Misplaced { at: 3 }, 4, 3, words);
    let words = "the file ends without a schedule, at offset 4";
    refused(b"UMUM", Refusal::NoSchedule { length: 4 }, 9, 4, words);
}

#[test]
fn refusals_of_records() {
    let many = b"UM".repeat(65);
    let words = "the record at offset 128 is the 65th instance, the 129th method or the 65th rule";
    refused(&many, Refusal::TooMany { record: 128 }, 5, 128, words);
    let words = "the record at offset 2 has a field out of its range, \
                 or a kind and a result that disagree";
    let no_ports = b"UMCR\0\0\0\0\0SC\0";
    refused(no_ports, Refusal::OutOfRange { record: 2 }, 6, 2, words);
    let words = "the record at offset 2 has a body with an unknown or out-of-range byte, \
                 or of depth 17, or that is not exactly its expressions";
    let no_body = b"UMRL\x02\0\x02\x01SC\0";
    refused(no_body, Refusal::BadBody { record: 2 }, 7, 2, words);
    let words = "the schedule at offset 2 names a missing rule, or one twice";
    let missing = b"UMSC\x01\0";
    refused(missing, Refusal::BadSchedule { record: 2 }, 8, 2, words);
}

/// A design of so many rules, each `true` and `block: let false`, and a
/// schedule.
fn scheduled(rules: usize, schedule: &[u8]) -> Vec<u8> {
    let rules = b"RL\x07\0\x02\x01\x07\x01\x08\x02\0".repeat(rules);
    [b"UM", &rules[..], b"SC", schedule].concat()
}

#[track_caller]
fn bad_entry(rules: usize, schedule: &[u8], words: &str) {
    let file = scheduled(rules, schedule);
    let refusal = Design::read(&file).expect_err("a bad schedule");
    let record = 2 + 11 * rules;
    assert_eq!(refusal, Refusal::BadSchedule { record });
    let entry = refusal.entry(&file).expect("an entry");
    assert_eq!(entry.to_string(), words);
}

/// The first that is at fault, also where the file is cut behind it.
#[test]
fn entries_at_fault() {
    let words = "entry 0 (from 0) names rule 0, which is missing: there are no rules";
    bad_entry(0, b"\x01\0", words);
    let words = "entry 1 (from 0) names rule 1, which is missing: there is rule 0 only";
    bad_entry(1, b"\x02\0\x01", words);
    let words = "entry 2 (from 0) names rule 255, which is missing: there are rules 0 to 2";
    bad_entry(3, b"\x05\x02\0\xFF\0", words);
    let words = "entry 3 (from 0) names rule 2, which entry 1 names before it";
    bad_entry(3, b"\x04\0\x02\x01\x02", words);
    let full: Vec<u8> = [64].into_iter().chain(0..63).chain([0]).collect();
    let words = "entry 63 (from 0) names rule 0, which entry 0 names before it";
    bad_entry(64, &full, words);
}

/// Only refusal 8 is about an entry, and only of its own file.
#[test]
fn no_entry_at_fault() {
    let file = scheduled(2, b"\x03\x01\0");
    let refusal = Design::read(&file).expect_err("cut short");
    assert_eq!(refusal, Refusal::CutShort { record: 24 });
    assert_eq!(refusal.entry(&file), None);
    let other = Refusal::BadSchedule { record: 24 };
    assert_eq!(other.entry(&scheduled(2, b"\x02\x01\0")), None);
    assert_eq!(other.entry(b"UM"), None);
    assert_eq!(other.entry(b""), None);
}

/// The first failure, by its method or rule: an RG, a module with a method, a
/// module with two methods and two rules.
#[test]
fn failures() {
    let method = b"MD\0\x01\0\x05\0\x01\x01\0\0\0";
    let lying = b"MD\0\x01\0\x02\0\x02\x01";
    let rule = b"RL\x08\0\x02\x01\x0B\x01\x07\0\0\0";
    let local = b"RL\x05\0\x02\x01\x0B\x03\0";
    let failure = |parts: [&[u8]; 4]| {
        let file = [
            b"RG\0\0\0\0UM",
            &method[..],
            b"UM",
            &parts.concat()[..],
            b"SC\0",
        ]
        .concat();
        let design = Design::read(&file).expect("a design");
        design.check().expect_err("a failure")
    };
    let found = failure([method, lying, rule, local]);
    let body = Body::Method {
        instance: 2,
        method: 1,
    };
    assert_eq!((found.reason, found.body), (Reason::WrongKind, body));
    let words = "wrong kind of value in method 1 of instance 2, at offset 34 (number 21, place 34)";
    assert_eq!(found.to_string(), words);
    let found = failure([method, method, rule, local]);
    assert_eq!(found.body, Body::Rule { rule: 1 });
    let words = "no such local in rule 1, at offset 58 (number 22, place 58)";
    assert_eq!(found.to_string(), words);
}

/// 21 to 28 with the document's words, and no other number.
#[test]
fn reasons() {
    let words = [
        "wrong kind of value",
        "no such local",
        "instance missing or not below the caller's",
        "no such method or port",
        "wrong argument count",
        "action in a pure place",
        "65th call",
        "17th live local",
    ];
    for (number, words) in (21..).zip(words) {
        let reason = Reason::of(number).expect("a reason");
        assert_eq!(reason.number(), number);
        assert_eq!(reason.to_string(), words);
    }
    for number in (0..21).chain(29..=255) {
        assert_eq!(Reason::of(number), None);
    }
}

/// 10 before 11 before 12; a run tests 10 only.
#[test]
fn refusals_of_buffers() {
    let design = Design::read(b"RG\x05\0\0\0UMSC\0").expect("a design");
    let clock = |state: usize, fates: usize, displays: usize| {
        let (mut state, mut fates) = (vec![1; state], vec![7; fates]);
        design.clock(&mut state, &mut fates, &mut vec![3; displays])
    };
    assert_eq!(clock(1, 63, 4095), Err(Refusal::StateLength));
    assert_eq!(clock(2, 63, 4095), Err(Refusal::FateRoom));
    assert_eq!(clock(2, 64, 4095), Err(Refusal::DisplayRoom));
    assert_eq!(clock(2, 64, 4096), Ok(Outcome::Quiet));
    assert_eq!(design.run(&mut [0; 3], 1), Err(Refusal::StateLength));
    assert_eq!(design.set_start(&mut [0; 1]), Err(Refusal::StateLength));
    assert_eq!(design.run(&mut [0; 2], 0), Ok(Ending::Limit { count: 0 }));
    let words = "the state's length is not the instance count (number 10, place 0)";
    assert_eq!(Refusal::StateLength.to_string(), words);
    let words = "the fate buffer has under 64 entries (number 11, place 0)";
    assert_eq!(Refusal::FateRoom.to_string(), words);
    let words = "the display buffer has under 4,096 entries (number 12, place 0)";
    assert_eq!(Refusal::DisplayRoom.to_string(), words);
}

/// A user module's entry stays, a register's does not.
#[test]
fn start_values_in_a_lent_state() {
    let design = Design::read(b"RG\x05\0\0\0UMSC\0").expect("a design");
    let mut state = [77, 77];
    assert_eq!(design.set_start(&mut state), Ok(()));
    assert_eq!(state, [5, 77]);
}

/// Answers in words. The second design is stuck by the number in its
/// guard (case P8), after a rule that displays.
#[test]
fn answers() {
    let design = Design::read(b"UMRL\x08\0\x02\x01\x0B\x01\x07\0\0\0SC\x01\0");
    let design = design.expect("a design");
    let mut board = design.board();
    assert_eq!(board.clock().to_string(), "fired, 1 displays");
    assert_eq!(board.run(3).to_string(), "limit, after 3 clocks that fired");
    let empty = Design::read(b"SC\0").expect("a design");
    assert_eq!(empty.board().clock().to_string(), "quiet");
    let words = "quiet, after 0 clocks that fired";
    assert_eq!(empty.board().run(3).to_string(), words);
    let stuck = b"UMRL\x08\0\x02\x01\x0B\x01\x07\0\0\0\
                  RL\x0B\0\x01\x01\0\0\0\x0B\x01\x07\0\0\0SC\x02\0\x01";
    let stuck = Design::read(stuck).expect("a design");
    let mut board = stuck.board();
    let outcome = board.clock();
    assert_eq!(outcome.displays(), 1);
    assert_eq!(board.displays(), [7]);
    let words = "rule 1 is stuck: wrong kind of value (number 21)";
    assert_eq!(outcome.to_string(), words);
    let words = format!("{words}, after 0 clocks that fired");
    assert_eq!(board.run(3).to_string(), words);
}
