//! Designs known by name, and the board's numbers.

use crate::families::Files;
use crate::large;
use crate::parts::{
    acts, always, and, choose, display, less, local, not, num, operator, read, rule, write,
};
use crate::record::{Body, Plan, Record};
use crate::running::known::{chain, crowd, fifo, gcd, most_displays, tower};
use crate::samples;

pub fn known() -> Files {
    let mut plans = vec![crowd(), tower()];
    for (first, second) in [(24, 16), (7, 0), (0, 7), (1, 1), (-3, 5), (i32::MIN, 3)] {
        plans.push(gcd(first, second, 2));
        plans.push(gcd(first, second, 0));
    }
    for inward in 0..=3 {
        for outward in 0..=3 {
            for schedule in [&[0, 1], &[1, 0]] {
                plans.push(fifo(inward, outward, schedule));
            }
        }
    }
    for queues in 1..=5 {
        let forward: Vec<u8> = (0..=queues).collect();
        let backward: Vec<u8> = forward.iter().rev().copied().collect();
        let mut mixed = forward.clone();
        mixed.rotate_left(1);
        for schedule in [forward, backward, mixed] {
            plans.push(chain(queues, 1, 0, &schedule));
            plans.push(chain(queues, 0, 1, &schedule));
        }
    }
    plans.iter().map(Plan::file).collect()
}

/// Near the largest file: all displays there can be, and a check that fails
/// far down.
pub fn largest() -> Files {
    let mut last_is_bad = most_displays();
    last_is_bad.records[64] = Record::rule(always(local(0)));
    let plans = [most_displays(), last_is_bad, large::full(32_768)];
    plans.iter().map(Plan::file).collect()
}

pub fn samples() -> Files {
    samples::samples().iter().map(Plan::file).collect()
}

/// The ends of the board's numbers, and what lies between.
const ENDS: [i32; 11] = [
    i32::MIN,
    i32::MIN + 1,
    -(1 << 30),
    -2,
    -1,
    0,
    1,
    2,
    1 << 30,
    i32::MAX - 1,
    i32::MAX,
];

/// Every operator on Nums with every two of the ends: as numbers in the
/// body, and with the left one in a register.
pub fn arithmetic() -> Files {
    let mut files = Vec::new();
    for byte in 0..=3 {
        for left in ENDS {
            let shown = |operand: Body, right: i32| {
                let value = operator(byte, operand, num(right));
                match byte {
                    0 | 1 => display(value),
                    _ => display(choose(value, num(1), num(0))),
                }
            };
            let numbers: Vec<Body> = ENDS.iter().map(|e| shown(num(left), *e)).collect();
            let register: Vec<Body> = ENDS.iter().map(|e| shown(read(0, 0), *e)).collect();
            let kept = write(0, 0, operator(byte & 1, read(0, 0), num(left)));
            files.push(with_register(
                left,
                &[acts(&numbers), acts(&register), kept],
            ));
        }
    }
    files
}

/// A sample and a threshold in registers, any two of the ends: the rules in
/// whose guards the sample is under it, over it, and neither. Overwritten, the
/// same rules compare whatever the host puts in.
pub fn thresholds() -> Files {
    let mut files = Vec::new();
    for sample in ENDS {
        for threshold in ENDS {
            let under = less(read(0, 0), read(1, 0));
            let over = less(read(1, 0), read(0, 0));
            let neither = and(not(under.clone()), not(over.clone()));
            let mut records = vec![
                Record::Register { start: sample },
                Record::Register { start: threshold },
                Record::User,
            ];
            let rules = [(under, 1), (over, 2), (neither, 3)];
            records
                .extend(rules.map(|(guard, shown)| Record::rule(rule(guard, display(num(shown))))));
            records.push(Record::schedule(vec![0, 1, 2]));
            files.push(Plan::new(records).file());
        }
    }
    files
}

fn with_register(start: i32, bodies: &[Body]) -> Vec<u8> {
    let mut records = vec![Record::Register { start }, Record::User];
    let rules = bodies.iter().cloned().map(always).map(Record::rule);
    records.extend(rules);
    records.push(Record::schedule((0..bodies.len() as u8).collect()));
    Plan::new(records).file()
}
