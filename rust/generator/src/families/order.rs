//! Which refusal goes first: fields of one record, and records of one file.

use super::Files;
use crate::design::{design, Size};
use crate::random::Random;
use crate::samples::samples;
use crate::spoil::spoil;

/// Heads of MD, CR and RL with good and bad fields, cut after every byte.
pub fn heads() -> Files {
    let mut files = Vec::new();
    for kind in 0..=3 {
        for result in 0..=3 {
            for count in 0..=5 {
                for parameters in [[1, 2, 1, 2, 1], [0, 1, 1, 1, 1], [1, 3, 0, 2, 1]] {
                    let mut record = b"MD".to_vec();
                    record.extend([kind, result, count]);
                    record.extend(&parameters[..usize::from(count)]);
                    record.extend([2, 0, 2, 1]);
                    add_cuts(&mut files, b"UM", &record);
                }
            }
        }
    }
    for ports in [0, 1, 4, 5, 9, 255] {
        let record = [b'C', b'R', ports, 1, 0, 0, 0];
        add_cuts(&mut files, b"", &record);
        add_cuts(&mut files, &b"UM".repeat(63), &record);
        add_cuts(&mut files, &b"UM".repeat(64), &record);
    }
    let rules: [&[u8]; 5] = [&[], &[2, 1], &[2, 1, 3, 0], &[2, 2, 3, 0], &[2, 1, 3, 0, 0]];
    for body in rules {
        let mut record = vec![b'R', b'L', body.len() as u8, 0];
        record.extend(body);
        add_cuts(&mut files, b"UM", &record);
        add_cuts(&mut files, b"", &record);
        add_cuts(&mut files, b"UMRG\0\0\0\0", &record);
    }
    files
}

/// The record after `before`, whole and cut, with and without a schedule.
fn add_cuts(files: &mut Files, before: &[u8], record: &[u8]) {
    for length in 0..=record.len() {
        files.push([before, &record[..length]].concat());
    }
    files.push([before, record, b"SC\0"].concat());
}

/// Schedules over 0 to 3 rules with every count to 4 and all small entries.
pub fn schedules() -> Files {
    let mut files = Vec::new();
    for rules in 0..=3 {
        let before = [b"UM", &b"RL\x04\0\x02\x01\x03\0".repeat(rules)[..]].concat();
        for length in 0..=4u32 {
            for which in 0..5usize.pow(length) {
                let entry = |place| [0, 1, 2, 3, 255][which / 5usize.pow(place) % 5];
                let entries: Vec<u8> = (0..length).map(entry).collect();
                for count in [length, length + 1, 64, 65] {
                    let head = [b'S', b'C', count as u8];
                    files.push([&before[..], &head, &entries].concat());
                }
            }
        }
    }
    files
}

/// Each number in many ways, from the samples and from random designs.
pub fn spoilt() -> Files {
    let mut files = Vec::new();
    let mut random = Random::new(4);
    for number in 1..=9 {
        let turns = if number == 1 { 2 } else { 30 };
        for plan in samples() {
            for _ in 0..turns {
                files.push(spoil(&mut random, &plan, number));
            }
        }
        for _ in 0..turns * 10 {
            let plan = design(&mut random, Size::tiny());
            files.push(spoil(&mut random, &plan, number));
        }
    }
    files
}

/// Records that are refused for one reason or another, and some good ones.
const PIECES: [&[u8]; 26] = [
    b"XX",
    b"RD\0",
    b"RG\0\0\0\0",
    b"RG\0",
    b"CR\x02\0\0\0\0",
    b"CR\x09",
    b"CR\0\0\0\0\0",
    b"UM",
    b"MD\0\x01\0\x02\0\x02\x01",
    b"MD\x03",
    b"MD\0\0",
    b"MD\x01\x01\0\x02\0\x02\x01",
    b"MD\0\x01\x05",
    b"MD\0\x01\x01\0",
    b"MD\0\x01\0\0\0",
    b"MD\0\x01\0\x02\0\x02\x02",
    b"MD\0\x01\0\xFF\xFF",
    b"RL\x04\0\x02\x01\x03\0",
    b"RL\0\0",
    b"RL\x02\0\x02\x01",
    b"RL\x40\0\x02\x01\x03\0",
    b"SC\0",
    b"SC\x01\0",
    b"SC\x02\0\0",
    b"SC\x41",
    b"S",
];

/// Every two and three of the pieces, under a UM.
pub fn pairs() -> Files {
    let mut files = Vec::new();
    for first in PIECES {
        for second in PIECES {
            files.push([first, second].concat());
            files.push([b"UM", first, second].concat());
            for third in PIECES {
                files.push([b"UM", first, second, third].concat());
            }
        }
    }
    files
}
