//! Designs that read and are used over and over: cut at every length and
//! damaged at every offset.

use crate::design::{design, Size};
use crate::random::Random;
use crate::record::{Body, Plan, Record};
use crate::shape::nest;
use crate::writer::{A, AV, V};

const NUM: u8 = 1;
const BOOL: u8 = 2;

/// The design of case P10: a rule that counts a register up.
pub fn p10() -> Plan {
    let mut body = Body::new();
    body.bool(true);
    body.call(0, 1, 1);
    body.operator(0);
    body.call(0, 0, 0);
    body.number(1);
    Plan::new(vec![
        Record::Register { start: 5 },
        Record::User,
        Record::rule(body),
        Record::schedule(vec![0]),
    ])
}

/// Every record and every sort of head, with the shortest bodies.
fn all_records() -> Plan {
    let mut void = Body::new();
    void.call(1, 7, 1);
    void.local(1);
    Plan::new(vec![
        Record::Register { start: -1 },
        Record::Concurrent { ports: 4, start: 9 },
        Record::User,
        Record::method(V, NUM, &[], Body::of_length(5)),
        Record::method(V, BOOL, &[NUM], Body::of_length(2)),
        Record::method(A, 0, &[BOOL, NUM], void),
        Record::method(AV, NUM, &[BOOL, NUM, BOOL, NUM], Body::of_length(5)),
        Record::rule(Body::rule_of_length(5)),
        Record::User,
        Record::rule(Body::rule_of_length(4)),
        Record::schedule(vec![1, 0]),
    ])
}

/// Every form of expression in one rule.
fn all_forms() -> Plan {
    let mut body = Body::new();
    body.operator(4);
    body.operator(3);
    body.call(0, 0, 0);
    body.number(100);
    body.operator(6);
    body.bool(false);
    body.block(4);
    body.open_let();
    body.operator(1);
    body.number(7);
    body.number(-7);
    body.open_do();
    body.open_if();
    body.operator(2);
    body.local(0);
    body.number(14);
    body.display();
    body.local(0);
    body.block(1);
    body.open_let();
    body.bool(true);
    body.open_do();
    body.open_when();
    body.operator(5);
    body.bool(true);
    body.bool(false);
    body.call(0, 1, 1);
    body.local(0);
    body.open_let();
    body.local(0);
    Plan::new(vec![
        Record::Register { start: 0 },
        Record::User,
        Record::rule(body),
        Record::schedule(vec![0]),
    ])
}

/// The one-place queue of document 000, its guards written as equal.
pub fn queue() -> Plan {
    let mut feed = Body::new();
    feed.bool(true);
    feed.call(2, 0, 1);
    feed.number(41);
    let mut drain = Body::new();
    filled(&mut drain, 0, 1);
    drain.display();
    drain.call(2, 1, 0);
    Plan::new(vec![
        Record::Register { start: 0 },
        Record::Concurrent { ports: 2, start: 0 },
        Record::User,
        Record::method(A, 0, &[NUM], put()),
        Record::method(AV, NUM, &[], take()),
        Record::User,
        Record::rule(feed),
        Record::rule(drain),
        Record::schedule(vec![1, 0]),
    ])
}

/// Is the queue's second register, read by this port, the wanted number?
fn filled(body: &mut Body, port: u8, wanted: i32) {
    body.operator(2);
    body.call(1, 2 * port, 0);
    body.number(wanted);
}

/// When the queue is empty, keep the parameter.
fn put() -> Body {
    let mut body = Body::new();
    body.open_when();
    filled(&mut body, 1, 0);
    body.block(2);
    body.open_do();
    body.call(0, 1, 1);
    body.local(0);
    body.open_do();
    body.call(1, 3, 1);
    body.number(1);
    body
}

/// When the queue is full, give what it keeps.
fn take() -> Body {
    let mut body = Body::new();
    body.open_when();
    filled(&mut body, 0, 1);
    body.block(2);
    body.open_do();
    body.call(1, 1, 1);
    body.number(0);
    body.open_do();
    body.call(0, 0, 0);
    body
}

/// A method whose body is of another kind than it declares.
pub fn liar() -> Plan {
    let mut body = Body::new();
    body.bool(true);
    body.display();
    body.call(0, 0, 0);
    Plan::new(vec![
        Record::User,
        Record::method(V, NUM, &[], Body::of_length(2)),
        Record::User,
        Record::rule(body),
        Record::schedule(vec![0]),
    ])
}

/// Guard, rule body and method body at depth 16.
pub fn deep() -> Plan {
    let mut rule = nest(16, &mut |level| level);
    rule.append(&nest(16, &mut |level| level * 5));
    Plan::new(vec![
        Record::User,
        Record::method(V, BOOL, &[], nest(16, &mut |_| 2)),
        Record::rule(rule),
        Record::schedule(vec![0]),
    ])
}

/// The longest block and the most arguments.
fn wide() -> Plan {
    let mut body = Body::new();
    body.call(0, 0, 4);
    for _ in 0..4 {
        body.local(3);
    }
    let mut rule = Body::new();
    rule.bool(true);
    rule.block(32);
    for _ in 0..32 {
        rule.open_do();
        rule.bool(true);
    }
    Plan::new(vec![
        Record::User,
        Record::method(V, BOOL, &[BOOL; 4], body),
        Record::rule(rule),
        Record::schedule(vec![0]),
    ])
}

pub fn samples() -> Vec<Plan> {
    let mut all = vec![
        Plan::new(vec![Record::schedule(vec![])]),
        p10(),
        all_records(),
        all_forms(),
        queue(),
        liar(),
        deep(),
        wide(),
    ];
    for seed in 0..6 {
        let mut random = Random::new(seed);
        all.push(design(&mut random, Size::tiny()));
        all.push(design(&mut random, Size::small()));
    }
    all
}
