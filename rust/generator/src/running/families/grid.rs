//! Every form with parts of every sort: which test goes first.

use crate::families::Files;
use crate::parts::{
    act, acts, always, bind, block, call, choose, display, dropped, equal, less, local, never, not,
    num, operator, read, rule, truth, void, when, write,
};
use crate::record::{Body, Plan, Record};
use crate::writer::{A, AV, V};

const NUM: u8 = 1;
const BOOL: u8 = 2;

/// The instance with the methods below, and the one with the rule.
const LIBRARY: u8 = 2;
const OWN: u8 = 3;

/// Methods 4, 7 and 8 that keep what they declare, or that do not: one lies
/// about its result, the others are stuck inside with 22 and with 26.
fn three_methods(sound: bool) -> [Body; 3] {
    match sound {
        true => [num(5), write(0, 0, num(5)), read(1, 0)],
        false => [
            truth(true),
            dropped(local(5)),
            acts(&[display(num(1)), num(1)]),
        ],
    }
}

/// 0 RG, 1 CR with 4 ports, 2 the library, 3 the UM with the rule.
fn around(guarded: Body) -> Vec<u8> {
    with_library(guarded, true)
}

fn with_library(guarded: Body, sound: bool) -> Vec<u8> {
    let action = acts(&[write(1, 0, num(9)), num(4)]);
    let [liar, stuck, acting] = three_methods(sound);
    let records = vec![
        Record::Register { start: 2 },
        Record::Concurrent { ports: 4, start: 6 },
        Record::User,
        Record::method(V, NUM, &[NUM, BOOL], choose(local(1), local(0), num(-1))),
        Record::method(A, 0, &[NUM], write(0, 0, local(0))),
        Record::method(AV, NUM, &[], action),
        Record::method(V, NUM, &[], read(1, 3)),
        Record::method(V, NUM, &[], liar),
        Record::method(V, BOOL, &[], less(read(0, 0), num(3))),
        Record::method(V, NUM, &[], never()),
        Record::method(A, 0, &[], stuck),
        Record::method(V, NUM, &[], acting),
        Record::method(A, 0, &[BOOL], void()),
        Record::method(AV, BOOL, &[NUM, NUM, BOOL, NUM], local(2)),
        Record::User,
        Record::rule(guarded),
        Record::schedule(vec![0]),
    ];
    Plan::new(records).file()
}

/// Parts of every sort; those that are stuck have different numbers.
fn atoms() -> Vec<Body> {
    vec![
        num(1),
        truth(true),
        truth(false),
        void(),
        never(),
        local(9),
        not(num(1)),
        call(OWN, 0, &[]),
        call(1, 8, &[]),
        call(0, 0, &[num(1)]),
        display(num(7)),
        call(LIBRARY, 2, &[]),
        block(&vec![bind(num(1)); 17]),
    ]
}

/// The expression as a rule's body, as a part of it, and in pure places.
fn places(files: &mut Files, expr: &Body) {
    files.extend(placed(expr).map(around));
}

fn placed(expr: &Body) -> [Body; 4] {
    let expr = || expr.clone();
    [
        always(expr()),
        always(dropped(expr())),
        rule(expr(), void()),
        always(when(expr(), display(num(3)))),
    ]
}

/// Operators, when, blocks of two statements.
pub fn two_parts() -> Files {
    let mut files = Vec::new();
    for one in atoms() {
        places(&mut files, &one);
        places(&mut files, &not(one.clone()));
        places(&mut files, &display(one.clone()));
        for other in atoms() {
            for byte in 0..=5 {
                places(&mut files, &operator(byte, one.clone(), other.clone()));
            }
            places(&mut files, &when(one.clone(), other.clone()));
            for first in [act, bind] {
                for last in [act, bind] {
                    let both = block(&[first(one.clone()), last(other.clone())]);
                    places(&mut files, &both);
                }
            }
            // The guard before the body, with and without a value.
            files.push(around(rule(one.clone(), other.clone())));
        }
    }
    files
}

/// If with a condition and two arms.
pub fn three_parts() -> Files {
    let mut files = Vec::new();
    for condition in atoms() {
        for then in atoms() {
            for otherwise in atoms() {
                let expr = choose(condition.clone(), then.clone(), otherwise);
                files.push(around(always(expr.clone())));
                files.push(around(always(dropped(expr.clone()))));
                files.push(around(rule(equal(expr, num(1)), void())));
            }
        }
    }
    files
}

/// Every instance and method number near those there are, with arguments.
pub fn calls() -> Files {
    let mut files = Vec::new();
    let names: Vec<(u8, u8)> = [0, 1, LIBRARY, OWN, OWN + 1, 63, 64, 255]
        .iter()
        .flat_map(|instance| (0..12).map(move |method| (*instance, method)))
        .chain([(0, 255), (1, 128), (LIBRARY, 127), (LIBRARY, 255)])
        .collect();
    for (instance, method) in names {
        let named = |arguments: &[Body]| call(instance, method, arguments);
        places(&mut files, &named(&[]));
        places(&mut files, &named(&[num(1)]));
        places(&mut files, &named(&[local(9)]));
        places(&mut files, &named(&[num(1), truth(true)]));
        places(&mut files, &named(&[num(1), num(2), truth(true), num(4)]));
        if instance == LIBRARY {
            let faulty = |guarded| with_library(guarded, false);
            files.extend(placed(&named(&[])).map(faulty));
        }
    }
    for one in atoms() {
        let only = [one.clone()];
        for (instance, method) in [(0, 1), (1, 5), (LIBRARY, 1), (LIBRARY, 9)] {
            places(&mut files, &call(instance, method, &only));
        }
        for other in atoms() {
            let both = [one.clone(), other.clone()];
            places(&mut files, &call(LIBRARY, 0, &both));
            // First and last of four, the middle ones good.
            let four = [one.clone(), num(1), truth(true), other];
            places(&mut files, &call(LIBRARY, 10, &four));
        }
    }
    files
}

/// An action deep in a pure place or in one that is not, by every way down.
pub fn purity() -> Files {
    let mut files = Vec::new();
    let actions = [
        display(num(5)),
        write(0, 0, num(5)),
        call(LIBRARY, 1, &[num(5)]),
        call(LIBRARY, 2, &[]),
        call(LIBRARY, 8, &[]),
        read(1, 2),
    ];
    for action in actions {
        let mut inner = vec![acts(&[action.clone(), num(1)]), action];
        // Two ways down, one inside the other.
        for _ in 0..2 {
            inner = inner.iter().flat_map(downwards).collect();
        }
        for expr in inner {
            files.push(around(always(dropped(expr.clone()))));
            files.push(around(rule(equal(expr.clone(), num(1)), void())));
            files.push(with_library(always(dropped(expr)), false));
        }
    }
    files
}

/// The part in every place of a whole that has a Num's value.
fn downwards(part: &Body) -> Vec<Body> {
    let part = || part.clone();
    let is_1 = equal(part(), num(1));
    vec![
        operator(0, part(), num(1)),
        operator(1, num(1), part()),
        choose(is_1.clone(), num(1), num(0)),
        choose(truth(true), part(), num(1)),
        choose(truth(false), num(1), part()),
        when(is_1, num(1)),
        when(truth(true), part()),
        block(&[bind(part()), act(num(1))]),
        acts(&[part(), num(1)]),
        acts(&[part()]),
        call(LIBRARY, 0, &[part(), truth(true)]),
        call(LIBRARY, 10, &[num(1), part(), truth(true), num(2)]),
        acts(&[write(0, 0, part()), num(1)]),
        acts(&[display(part()), num(1)]),
    ]
}
