//! Every two methods of one register, called in one rule and in two, by both
//! programs: the letters that document 01's five comparisons of ports give,
//! written out pair by pair. And of a user's instance, whose methods have no
//! ports, whatever their numbers.

use cantaribol::Design;
use generator::parts::{acts, always, call, dropped, num, void};
use generator::record::{Body, Plan, Record};
use generator::writer::A;
use second::Runner;

/// A row for the first call and a column for the second, each in the order
/// read 0, write 0, read 1, .. write 3: the fate of the rule that has both.
const INSIDE: [&str; 8] = [
    "FFFFFFFF", "FHAAAAAA", "FAFFFFFF", "FAFHAAAA", "FAFAFFFF", "FAFAFHAA", "FAFAFAFF", "FAFAFAFH",
];

/// The fate of the later rule.
const ACROSS: [&str; 8] = [
    "FFFFFFFF", "EHFFFFFF", "FEFFFFFF", "EEEHFFFF", "FEFEFFFF", "EEEEEHFF", "FEFEFEFF", "EEEEEEEH",
];

fn used(method: u8) -> Body {
    match method % 2 {
        0 => dropped(call(0, method, &[])),
        _ => call(0, method, &[num(1)]),
    }
}

/// Rules with these bodies, beside a register with four ports.
fn file(bodies: &[Body]) -> Vec<u8> {
    with(vec![Record::Concurrent { ports: 4, start: 6 }], bodies)
}

/// Rules with these bodies, beside a user's instance with so many methods.
fn user_file(methods: u8, bodies: &[Body]) -> Vec<u8> {
    let mut records = vec![Record::User];
    records.extend((0..methods).map(|_| Record::method(A, 0, &[], void())));
    with(records, bodies)
}

fn with(mut records: Vec<Record>, bodies: &[Body]) -> Vec<u8> {
    records.push(Record::User);
    records.extend(bodies.iter().cloned().map(always).map(Record::rule));
    records.push(Record::schedule((0..bodies.len() as u8).collect()));
    Plan::new(records).file()
}

/// The last rule's letter in the first clock, on which both programs agree.
fn letter(file: &[u8]) -> char {
    let design = Design::read(file).expect("a design");
    let mut board = design.board();
    board.clock();
    let (_, fate) = *board.fates().last().expect("a rule");
    let other = second::read(file).expect("a design");
    let mut runner = Runner::new(&other);
    runner.clock(&mut [6, 0]);
    assert_eq!(fate.number(), *runner.fates.last().expect("a rule") as u8);
    fate.letter()
}

fn every_pair(rows: &[&str; 8], pair: impl Fn(Body, Body) -> Vec<u8>) {
    for (first, row) in (0..).zip(rows) {
        for (second, expected) in (0..).zip(row.chars()) {
            let file = pair(used(first), used(second));
            assert_eq!(letter(&file), expected, "methods {first} and {second}");
        }
    }
}

#[test]
fn inside_one_rule() {
    every_pair(&INSIDE, |first, second| file(&[acts(&[first, second])]));
}

#[test]
fn an_earlier_rule_and_a_later_one() {
    every_pair(&ACROSS, |first, second| file(&[first, second]));
}

/// Twice the same is a hardware conflict; two others never clash, from
/// method 8 on as below.
#[test]
fn user_methods_have_no_ports() {
    let methods = 18;
    for first in 0..methods {
        for second in 0..methods {
            let of = |method| call(0, method, &[]);
            let expected = if first == second { 'H' } else { 'F' };
            let inside = user_file(methods, &[acts(&[of(first), of(second)])]);
            let across = user_file(methods, &[of(first), of(second)]);
            assert_eq!(letter(&inside), expected, "inside {first} {second}");
            assert_eq!(letter(&across), expected, "across {first} {second}");
        }
    }
}
