//! Everything at each limit and one past it.

use super::Files;
use crate::large;
use crate::random::Random;
use crate::record::{Body, Plan, Record, Role};
use crate::shape::{nest, PLACES};
use crate::spoil::FILE_LIMIT;

/// Files of about the largest size, good and bad.
pub fn sizes() -> Files {
    let mut files = Vec::new();
    let mut random = Random::new(2);
    for length in FILE_LIMIT - 2..=FILE_LIMIT + 2 {
        for _ in 0..4 {
            let file = large::of_length(&mut random, length).file();
            // The same without its schedule, and ended within it.
            files.push(file[..length - 4].to_vec());
            files.push(file[..length - 1].to_vec());
            files.push(file);
        }
        files.push(large::full(length).file());
        files.push(vec![0; length]);
        files.push(b"UM".repeat(length / 2));
        files.push(padded(b"SC\0", length));
        files.push(without_schedule(length));
    }
    files.push(vec![0; 65_535]);
    files.push(vec![0; 65_536]);
    files.push(vec![0; 100_000]);
    files.push(padded(&crate::samples::p10().file(), 98_304));
    files
}

fn padded(start: &[u8], length: usize) -> Vec<u8> {
    let mut file = start.to_vec();
    file.resize(length, b'R');
    file
}

/// One method that reaches to the very end: 9 at the file's length.
fn without_schedule(length: usize) -> Vec<u8> {
    let body = Body::of_length(length - 2 - 7);
    Plan::new(vec![Record::User, Record::method(0, 1, &[], body)]).file()
}

/// The 64th, 65th and so on, with what may follow its mark.
pub fn numbers() -> Files {
    let mut files = Vec::new();
    let method = Record::method(0, 1, &[], Body::of_length(2));
    let rule = Record::rule(Body::rule_of_length(4));
    for start in [
        Record::User,
        Record::Register { start: 1 },
        Record::Concurrent { ports: 1, start: 1 },
    ] {
        add_about(&mut files, &[], &start, 64);
    }
    add_about(&mut files, &[Record::User], &method, 128);
    add_about(&mut files, &[Record::User], &rule, 64);
    // Methods and rules of several instances count together.
    for (record, most) in [(&method, 128), (&rule, 64)] {
        let mut before = vec![Record::User; 2];
        before.extend(vec![record.clone(); most - 3]);
        before.extend([Record::Register { start: 0 }, Record::User]);
        add_about(&mut files, &before, record, 3);
        // 4 stands before 5.
        before.extend(vec![record.clone(); 3]);
        before.push(Record::Register { start: 0 });
        add_about(&mut files, &before, record, 1);
    }
    files
}

/// One fewer than `most` times, `most` times, and once too often.
fn add_about(files: &mut Files, before: &[Record], record: &Record, most: usize) {
    for times in [most - 1, most, most + 1] {
        let mut records = before.to_vec();
        records.extend(vec![record.clone(); times]);
        let open = Plan::new(records).file();
        files.push(open.clone());
        for tail in tails() {
            files.push([&open[..], tail].concat());
        }
    }
}

/// What may come next: a schedule, or records cut or spoilt at each field.
fn tails() -> Vec<&'static [u8]> {
    vec![
        b"SC\0",
        b"SC\x01\0",
        b"SC\x01\x3F",
        b"SC\x01\x40",
        b"UM",
        b"UMSC\0",
        b"RG",
        b"RG\0\0\0\0SC\0",
        b"CR",
        b"CR\x09",
        b"CR\x04\0\0\0\0SC\0",
        b"CC",
        b"C",
        b"MD",
        b"MD\x03",
        b"MD\0\x01\0\x02\0\x02\x01SC\0",
        b"MD\0\x01\0\0\0SC\0",
        b"RL",
        b"RL\xFF\xFF",
        b"RL\0\0SC\0",
        b"RL\x04\0\x02\x01\x03\0SC\0",
    ]
}

/// Every value of each field of one byte outside the bodies.
pub fn fields() -> Files {
    let mut files = Vec::new();
    for value in 0..=255u8 {
        files.push([b"CR", &[value, 0, 0, 0, 0][..], b"SC\0"].concat());
        let method = |head: &[u8]| [b"UMMD", head, &[2, 0, 2, 1], b"SC\0"].concat();
        files.push(method(&[value, 0, 0]));
        files.push(method(&[value, 1, 0]));
        for kind in 0..=2 {
            files.push(method(&[kind, value, 0]));
        }
        let mut counted = vec![0, 1, value];
        counted.extend(std::iter::repeat_n(1, usize::from(value)));
        files.push(method(&counted));
        files.push(method(&[0, 2, 1, value]));
        files.push(method(&[0, 2, 4, 1, 2, 1, value]));
        files.push(method(&[0, 2, 2, value, 1]));
        files.extend(schedule_counts(value));
    }
    files
}

/// A schedule of this count over as many rules as there can be.
fn schedule_counts(count: u8) -> Files {
    let rules = usize::from(count.min(64));
    let mut records = vec![Record::User];
    records.extend(vec![Record::rule(Body::rule_of_length(4)); rules]);
    let mut files = Vec::new();
    if count <= 66 || count > 250 {
        let entries: Vec<u8> = (0..count).rev().collect();
        for kept in [entries.len(), entries.len().saturating_sub(1)] {
            let mut all = records.clone();
            let entries = entries[entries.len() - kept..].to_vec();
            all.push(Record::Schedule {
                count: usize::from(count),
                entries,
            });
            files.push(Plan::new(all).file());
        }
    }
    files
}

/// A method and a rule with this body, in a file of its own each.
fn around(files: &mut Files, body: &Body) {
    let method = Record::method(0, 1, &[], body.clone());
    let schedule = Record::schedule(vec![]);
    files.push(Plan::new(vec![Record::User, method, schedule]).file());
    let mut guarded = Body::new();
    guarded.bool(true);
    guarded.append(body);
    let schedule = Record::schedule(vec![0]);
    files.push(Plan::new(vec![Record::User, Record::rule(guarded), schedule]).file());
}

/// Every value of each sort of byte in a body.
pub fn body_bytes() -> Files {
    let mut files = Vec::new();
    for value in 0..=255u8 {
        for parts in 0..=3 {
            around(&mut files, &opened(value, parts));
        }
        let mut local = Body::new();
        local.local(value);
        around(&mut files, &local);
        let mut call = Body::new();
        call.call(value, 0, 0);
        around(&mut files, &call);
        let mut call = Body::new();
        call.call(0, value, 0);
        around(&mut files, &call);
        let mut truth = Body::new();
        truth.put(2, Role::Expression);
        truth.put(value, Role::Bool);
        around(&mut files, &truth);
        let mut block = Body::new();
        block.block(1);
        block.put(value, Role::Statement);
        block.bool(true);
        around(&mut files, &block);
        counted(&mut files, value);
    }
    files
}

/// A first byte of any value, with some parts behind it.
fn opened(value: u8, parts: usize) -> Body {
    let mut body = Body::new();
    body.put(value, Role::Expression);
    for _ in 0..parts {
        body.bool(true);
    }
    body
}

/// Blocks, calls and operators of any count, with parts to that count and
/// with one part fewer or more.
fn counted(files: &mut Files, value: u8) {
    let parts = usize::from(value).min(36);
    for parts in [parts.saturating_sub(1), parts, parts + 1] {
        let mut block = Body::new();
        block.block(usize::from(value));
        let mut call = Body::new();
        call.call(1, 2, usize::from(value));
        for _ in 0..parts {
            block.open_do();
            block.bool(true);
            call.local(9);
        }
        around(files, &block);
        around(files, &call);
    }
    for parts in 0..=3 {
        let mut operator = Body::new();
        operator.operator(value);
        for _ in 0..parts {
            operator.local(1);
        }
        around(files, &operator);
    }
}

/// Lengths that fit, that do not, and that run to or past the end.
pub fn lengths() -> Files {
    let mut files = Vec::new();
    let bodies: [&[u8]; 4] = [
        &[2, 1, 3, 0],
        &[2, 1, 2, 1, 2, 1],
        &[2, 1],
        &[1, 0, 0, 0, 0],
    ];
    let heads: [&[u8]; 3] = [b"UMRL", b"UMMD\0\x01\0", b"UMMD\0\x01\x02\x01\x02"];
    let tails: [&[u8]; 3] = [b"", b"SC\0", b"UMSC\x01\0"];
    for head in heads {
        for body in bodies {
            for tail in tails {
                let there = (body.len() + tail.len()) as u16;
                let far = [255, 256, 257, 512, 0x0200, 0x7FFF, 0x8000, 0xFFFF];
                for length in (0..=there + 2).chain(far) {
                    files.push([head, &length.to_le_bytes(), body, tail].concat());
                }
                files.push([head, &[4][..]].concat());
            }
        }
    }
    // Lengths whose high byte counts.
    for length in [255, 256, 257, 4095, 4096, 30_000] {
        for said in [length - 1, length, length + 1] {
            let mut rule = Record::rule(Body::rule_of_length(length));
            rule.set_length(said);
            let schedule = Record::schedule(vec![0]);
            files.push(Plan::new(vec![Record::User, rule, schedule]).file());
        }
    }
    files
}

/// Depth 15 to 18, each place a part can have, in guard, rule and method.
pub fn depths() -> Files {
    let mut files = Vec::new();
    let mut random = Random::new(3);
    for depth in 15..=18 {
        for place in 0..PLACES {
            add_depth(&mut files, &nest(depth, &mut |_| place));
            add_depth(&mut files, &nest(depth, &mut |level| place + level));
            add_depth(&mut files, &nest(depth, &mut |_| random.below(PLACES)));
        }
    }
    files
}

fn add_depth(files: &mut Files, body: &Body) {
    around(files, body);
    let mut guard = body.clone();
    guard.bool(true);
    let schedule = Record::schedule(vec![0]);
    files.push(Plan::new(vec![Record::User, Record::rule(guard), schedule]).file());
}
