//! Several faults in one file: which one the check names.

use crate::families::Files;
use crate::parts::{
    acts, always, call, display, local, not, num, read, rule, times, truth, void, write,
};
use crate::record::{Body, Plan, Record};
use crate::writer::{A, AV, V};

const NUM: u8 = 1;

/// Methods and rules that pass or fail, each in its own way.
fn pieces() -> Vec<Record> {
    vec![
        Record::method(V, NUM, &[], read(0, 0)),
        Record::method(V, NUM, &[], truth(true)),
        Record::method(A, 0, &[NUM], num(1)),
        Record::method(AV, NUM, &[], acts(&[display(local(0)), num(1)])),
        Record::method(V, NUM, &[], acts(&[display(num(1)), num(1)])),
        Record::rule(always(void())),
        Record::rule(rule(not(num(1)), void())),
        Record::rule(always(local(0))),
        Record::rule(rule(truth(false), call(200, 0, &[]))),
        Record::rule(always(write(0, 0, truth(true)))),
    ]
}

/// Every three of them under one UM or two, none scheduled or all.
pub fn file_order() -> Files {
    let mut files = Vec::new();
    let pieces = pieces();
    for first in &pieces {
        for second in &pieces {
            for third in &pieces {
                let scheduled = files.len().is_multiple_of(2);
                files.push(file(&[first, second, third], scheduled));
            }
        }
    }
    files
}

fn file(pieces: &[&Record], scheduled: bool) -> Vec<u8> {
    let mut records = vec![Record::Register { start: 0 }, Record::User];
    for (at, piece) in pieces.iter().enumerate() {
        if at == 2 {
            records.push(Record::User);
        }
        records.push((*piece).clone());
    }
    let rules = Plan::new(records.clone()).rule_count() as u8;
    let entries = if scheduled {
        (0..rules).collect()
    } else {
        vec![]
    };
    records.push(Record::schedule(entries));
    Plan::new(records).file()
}

/// Too many calls in methods and rules, and other faults before and after.
pub fn call_limit_last() -> Files {
    let mut files = Vec::new();
    let many = |count: usize| times(count, &read(0, 0));
    let calling = |method: u8| Record::rule(always(call(1, method, &[])));
    let good = Record::rule(always(void()));
    let lasts: [Body; 4] = [void(), local(0), many(64), many(65)];
    for in_method in [63, 64, 65, 200] {
        for last in &lasts {
            for before in [0, 1, 2] {
                let mut records = vec![
                    Record::Register { start: 0 },
                    Record::User,
                    Record::method(A, 0, &[], many(in_method)),
                    Record::method(A, 0, &[], acts(&[many(32), many(31)])),
                    Record::User,
                ];
                records.extend(vec![good.clone(); before]);
                records.push(calling(1));
                files.push(finish(&records, last));
                records.push(calling(0));
                files.push(finish(&records, last));
            }
        }
    }
    files
}

/// One more rule and one more method, then an empty schedule.
fn finish(records: &[Record], last: &Body) -> Vec<u8> {
    let mut records = records.to_vec();
    records.push(Record::rule(always(last.clone())));
    records.push(Record::method(A, 0, &[], last.clone()));
    records.push(Record::schedule(vec![]));
    Plan::new(records).file()
}
