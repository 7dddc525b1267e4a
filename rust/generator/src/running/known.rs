//! Designs that are known by name: those of document 000, queues in a row,
//! and the ones that speed is measured on.

use crate::parts::{
    act, acts, always, and, bind, block, call, choose, display, equal, less, local, minus, not,
    num, plus, read, rule, times, truth, void, when, write,
};
use crate::record::{Body, Plan, Record};
use crate::writer::{A, AV, V};

const NUM: u8 = 1;

/// Document 000's GCD of two numbers. `last` is what finish writes to state:
/// 2 there; with 0 it begins again.
pub fn gcd(first: i32, second: i32, last: i32) -> Plan {
    let (state, x, y, busy) = (0, 1, 2, 3);
    let is = |register, number| equal(read(register, 0), num(number));
    let over = less(read(y, 0), read(x, 0));
    let going = and(is(busy, 1), not(is(y, 0)));
    let swap = acts(&[write(x, 0, read(y, 0)), write(y, 0, read(x, 0))]);
    let subtract = write(y, 0, minus(read(y, 0), read(x, 0)));
    let start = acts(&[
        write(x, 0, local(0)),
        write(y, 0, local(1)),
        write(busy, 0, num(1)),
    ]);
    let result = acts(&[write(busy, 0, num(0)), read(x, 0)]);
    let init = acts(&[
        call(4, 0, &[num(first), num(second)]),
        write(state, 0, num(1)),
    ]);
    let finish = block(&[
        bind(call(4, 1, &[])),
        act(display(local(0))),
        act(write(state, 0, num(last))),
    ]);
    let mut records = vec![Record::Register { start: 0 }; 4];
    records.extend([
        Record::User,
        Record::rule(rule(and(over.clone(), going.clone()), swap)),
        Record::rule(rule(and(not(over), going), subtract)),
        Record::method(A, 0, &[NUM, NUM], when(is(busy, 0), start)),
        Record::method(AV, NUM, &[], when(and(is(busy, 1), is(y, 0)), result)),
        Record::User,
        Record::rule(rule(is(state, 0), init)),
        Record::rule(rule(is(state, 1), finish)),
        Record::schedule(vec![2, 3, 0, 1]),
    ]);
    Plan::new(records)
}

/// The records of a one-place queue whose registers are `full` and the one
/// after it: methods enq, notEmpty, first and deq, and the ports they use.
fn queue(full: u8, inward: u8, outward: u8) -> Vec<Record> {
    let data = full + 1;
    let is = |port, number| equal(read(full, port), num(number));
    let enq = acts(&[write(data, inward, local(0)), write(full, inward, num(1))]);
    let first = when(is(outward, 1), read(data, outward));
    let deq = when(is(outward, 1), write(full, outward, num(0)));
    vec![
        Record::User,
        Record::method(A, 0, &[NUM], when(is(inward, 0), enq)),
        Record::method(V, NUM, &[], read(full, outward)),
        Record::method(V, NUM, &[], first),
        Record::method(A, 0, &[], deq),
    ]
}

/// Put the number of x in, and count it up.
fn feed(x: u8, queue: u8) -> Body {
    always(acts(&[
        call(queue, 0, &[read(x, 0)]),
        write(x, 0, plus(read(x, 0), num(1))),
    ]))
}

fn drain(queue: u8) -> Body {
    let body = acts(&[display(call(queue, 2, &[])), call(queue, 3, &[])]);
    rule(equal(call(queue, 1, &[]), num(1)), body)
}

/// Document 000's feed and drain, rules 0 and 1, with the queue's ports:
/// (1, 0) is its PipelineFIFO and (0, 1) its BypassFIFO.
pub fn fifo(inward: u8, outward: u8, schedule: &[u8]) -> Plan {
    let ports = inward.max(outward) + 1;
    let mut records = vec![
        Record::Register { start: 0 },
        Record::Concurrent { ports, start: 0 },
        Record::Concurrent { ports, start: 0 },
    ];
    records.extend(queue(1, inward, outward));
    records.extend([
        Record::User,
        Record::rule(feed(0, 3)),
        Record::rule(drain(3)),
        Record::schedule(schedule.to_vec()),
    ]);
    Plan::new(records)
}

/// Feed, then queues in a row with a rule that moves from each to the next,
/// then drain; the rules are numbered from feed on.
pub fn chain(queues: u8, inward: u8, outward: u8, schedule: &[u8]) -> Plan {
    let register = Record::Concurrent { ports: 2, start: 0 };
    let mut records = vec![Record::Register { start: 1 }];
    for at in 0..queues {
        records.extend([register.clone(), register.clone()]);
        records.extend(queue(1 + 3 * at, inward, outward));
    }
    let queue_at = |at: u8| 3 + 3 * at;
    records.push(Record::User);
    records.push(Record::rule(feed(0, queue_at(0))));
    for at in 1..queues {
        let (from, to) = (queue_at(at - 1), queue_at(at));
        let moved = acts(&[call(to, 0, &[call(from, 2, &[])]), call(from, 3, &[])]);
        records.push(Record::rule(always(moved)));
    }
    records.push(Record::rule(drain(queue_at(queues - 1))));
    records.push(Record::schedule(schedule.to_vec()));
    Plan::new(records)
}

/// 64 rules on a few registers: counters by each port that follow each other
/// or clash, and rules that read many registers and are held back late.
pub fn crowd() -> Plan {
    let mut records = vec![Record::Concurrent { ports: 4, start: 0 }; 8];
    records.push(Record::User);
    for number in 0..64u8 {
        let (register, port) = (number % 8, number / 16);
        let count = write(register, port, plus(read(register, port), num(1)));
        let body = match number % 4 {
            0 | 1 => count,
            2 => {
                // Reads of all, then a write that is late in the order.
                let mut parts: Vec<Body> = (0..8).map(|r| read(r, 3)).collect();
                parts.push(count);
                acts(&parts)
            }
            _ => choose(less(read(register, port), num(0)), void(), count),
        };
        records.push(Record::rule(always(body)));
    }
    records.push(Record::schedule((0..64).collect()));
    Plan::new(records)
}

/// 62 methods, each calling the one below with its parameter counted up;
/// the rule keeps what comes back.
pub fn tower() -> Plan {
    let mut records = vec![Record::Register { start: 0 }];
    records.push(Record::User);
    records.push(Record::method(V, NUM, &[NUM], plus(local(0), num(1))));
    for below in 1..62 {
        let inner = call(below, 0, &[plus(local(0), num(1))]);
        let body = choose(truth(true), plus(inner, num(0)), num(0));
        records.push(Record::User);
        records.push(Record::method(V, NUM, &[NUM], body));
    }
    // Instance 63 may call 62, the topmost method: 62 calls and a write.
    records.push(Record::User);
    records.push(Record::rule(always(write(0, 0, call(62, 0, &[num(1)])))));
    records.push(Record::schedule(vec![0]));
    Plan::new(records)
}

/// 64 rules of 64 displays each: a clock makes 4,096, and there is no more.
pub fn most_displays() -> Plan {
    let mut records = vec![Record::User];
    for number in 0..64 {
        let body = times(64, &display(num(1000 + number)));
        records.push(Record::rule(always(body)));
    }
    records.push(Record::schedule((0..64).rev().collect()));
    Plan::new(records)
}
