//! Around 16 live locals, and what a number names.

use crate::families::Files;
use crate::parts::{
    act, acts, always, bind, block, call, choose, display, dropped, equal, local, never, num, plus,
    rule, truth, void, when,
};
use crate::record::{Body, Plan, Record};
use crate::writer::{A, AV, V};

const NUM: u8 = 1;
const BOOL: u8 = 2;

fn lets(count: usize) -> Vec<Body> {
    (0..count).map(|at| bind(num(40 + at as i32))).collect()
}

/// A method of so many parameters with this body, and a rule that calls it
/// while it has locals of its own.
fn in_method(kind: u8, parameters: usize, body: Body) -> Vec<u8> {
    let result = if kind == A { 0 } else { NUM };
    let arguments: Vec<Body> = (0..parameters).map(|at| num(at as i32)).collect();
    let called = call(0, 0, &arguments);
    let mut statements = lets(15);
    statements.push(act(match kind {
        A => called,
        _ => display(called),
    }));
    let records = vec![
        Record::User,
        Record::method(kind, result, &vec![NUM; parameters], body),
        Record::User,
        Record::rule(always(block(&statements))),
        Record::schedule(vec![0]),
    ];
    Plan::new(records).file()
}

fn in_rule(guarded: Body) -> Vec<u8> {
    let records = vec![
        Record::User,
        Record::method(V, NUM, &[NUM, BOOL], choose(local(1), local(0), num(-1))),
        Record::User,
        Record::rule(guarded),
        Record::schedule(vec![0]),
    ];
    Plan::new(records).file()
}

/// So many lets, then a last statement of every sort.
fn bodies(count: usize) -> Vec<Body> {
    let lasts = [
        bind(num(1)),
        bind(local(99)),
        bind(never()),
        bind(void()),
        bind(block(&[bind(num(1))])),
        bind(block(&[bind(num(1)), bind(num(2))])),
        act(block(&[bind(num(1))])),
        act(acts(&[num(2), void()])),
        act(block(&[bind(num(1)), bind(truth(true)), act(void())])),
        act(choose(truth(true), void(), local(99))),
        act(when(equal(local(0), num(40)), void())),
    ];
    let with = |last: &Body| {
        let mut statements = lets(count);
        statements.push(last.clone());
        block(&statements)
    };
    lasts.iter().map(with).collect()
}

/// Blocks that bring the live locals to 14 up to 18, in rules and methods.
pub fn live() -> Files {
    let mut files = Vec::new();
    for count in 9..=17 {
        for body in bodies(count) {
            files.push(in_rule(always(body.clone())));
            let guard = acts(&[body.clone(), truth(true)]);
            files.push(in_rule(rule(guard, void())));
            for parameters in 0..=4 {
                files.push(in_method(A, parameters, body.clone()));
                let valued = acts(&[body.clone(), num(3)]);
                files.push(in_method(V, parameters, valued.clone()));
                files.push(in_method(AV, parameters, valued));
            }
        }
    }
    files
}

/// Every local number in blocks that open, close and stand in each other.
pub fn freed() -> Files {
    let mut files = Vec::new();
    for number in [0, 1, 2, 3, 4, 15, 16, 255] {
        let shown = || display(local(number));
        let inner = block(&[bind(num(50)), bind(num(51)), act(shown())]);
        let shapes = [
            block(&[bind(num(1)), act(inner.clone()), act(shown())]),
            block(&[act(inner.clone()), bind(num(2)), act(shown())]),
            block(&[bind(num(1)), bind(inner.clone()), act(shown())]),
            block(&[bind(plus(local(number), num(1))), act(shown())]),
            block(&[bind(num(1)), bind(local(number)), act(shown())]),
            block(&[bind(void()), bind(truth(true)), bind(num(3)), act(shown())]),
            acts(&[choose(truth(true), inner.clone(), shown()), shown()]),
            block(&[bind(num(9)), act(when(truth(true), inner.clone()))]),
            block(&[
                bind(num(9)),
                act(display(call(0, 0, &[local(number), truth(true)]))),
            ]),
            block(&[
                bind(num(9)),
                act(display(plus(
                    block(&[bind(num(7)), act(local(1))]),
                    block(&[bind(num(8)), act(local(number))]),
                ))),
            ]),
        ];
        for shape in shapes {
            files.push(in_rule(always(shape.clone())));
            files.push(in_rule(always(dropped(shape.clone()))));
            files.push(in_method(A, 2, shape));
        }
        // The guard's locals are not the body's.
        let guard = block(&[bind(num(1)), bind(num(2)), act(truth(true))]);
        files.push(in_rule(rule(guard, shown())));
        let guard = block(&[bind(num(1)), act(equal(local(number), num(1)))]);
        files.push(in_rule(rule(guard, void())));
    }
    files
}
