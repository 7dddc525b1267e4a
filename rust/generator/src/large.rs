//! Designs near the limits of number and size.

use crate::design::schedule;
use crate::random::Random;
use crate::record::{Body, Plan, Record};

/// Around the limit of instances, of methods or of rules.
pub fn crowd(random: &mut Random) -> Plan {
    let mut records = Vec::new();
    let mut rules = 0;
    match random.below(3) {
        0 => {
            for _ in 0..random.within(62, 66) {
                records.push(match random.below(3) {
                    0 => Record::Register { start: 1 },
                    1 => Record::Concurrent { ports: 4, start: 1 },
                    _ => Record::User,
                });
            }
        }
        1 => {
            let method = Record::method(0, 1, &[], Body::of_length(2));
            spread(random, &mut records, method, 126, 130);
        }
        _ => {
            let rule = Record::rule(Body::rule_of_length(4));
            rules = spread(random, &mut records, rule, 62, 66);
        }
    }
    let entries = schedule(random, rules);
    records.push(Record::schedule(entries));
    Plan::new(records)
}

/// The record many times, under several UMs; the answer is how many times.
fn spread(
    random: &mut Random,
    records: &mut Vec<Record>,
    record: Record,
    low: usize,
    high: usize,
) -> usize {
    let times = random.within(low, high);
    for done in 0..times {
        if done == 0 || random.below(40) == 0 {
            if random.in_hundred(30) {
                records.push(Record::Register { start: 0 });
            }
            records.push(Record::User);
        }
        // A last one under a register is 4, be it one too many or not.
        if done + 1 == times && random.in_hundred(20) {
            records.push(Record::Register { start: 0 });
        }
        records.push(record.clone());
    }
    times
}

/// A file of exactly `length` bytes, at least 1000: some methods and rules
/// with long bodies. It reads if it is not over the limit.
pub fn of_length(random: &mut Random, length: usize) -> Plan {
    let count = random.within(1, 8);
    let mut records = vec![Record::User];
    // UM, and SC with one entry.
    let mut room = length - 2 - 4;
    for left in (0..count).rev() {
        let share = if left == 0 { room } else { room / (left + 1) };
        room -= share;
        // The last is a rule, as the schedule names rule 0.
        if left > 0 && random.in_hundred(50) {
            let body = Body::of_length(share - 7);
            records.push(Record::method(0, 1, &[], body));
        } else {
            records.push(Record::rule(Body::rule_of_length(share - 4)));
        }
    }
    records.push(Record::schedule(vec![0]));
    Plan::new(records)
}

/// Every limit reached at once: 64 instances, 128 methods, 64 rules and
/// exactly `length` bytes.
pub fn full(length: usize) -> Plan {
    let mut records = vec![Record::Register { start: 3 }];
    let heads = 6 + 63 * 2 + 128 * 7 + 64 * 4 + 3 + 64;
    let room = length - heads;
    let mut left = 192;
    let mut used = 0;
    let mut size = || {
        let share = (room - used) / left;
        left -= 1;
        used += share;
        share
    };
    for user in 0..63 {
        records.push(Record::User);
        for _ in 0..if user < 2 { 3 } else { 2 } {
            let body = Body::of_length(size());
            records.push(Record::method(0, 1, &[], body));
        }
        for _ in 0..if user < 1 { 2 } else { 1 } {
            records.push(Record::rule(Body::rule_of_length(size())));
        }
    }
    records.push(Record::schedule((0..64).rev().collect()));
    Plan::new(records)
}
