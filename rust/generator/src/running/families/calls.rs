//! Around 64 calls: recorded, and possible.

use crate::families::Files;
use crate::parts::{
    acts, always, call, choose, display, dropped, equal, less, local, never, not, num, plus, read,
    rule, times, truth, void, when, write,
};
use crate::record::{Body, Plan, Record};
use crate::writer::{A, AV, V};

const NUM: u8 = 1;
const BOOL: u8 = 2;

/// 0 RG; 1 a UM with methods of some cost; 2 the rule. Method 5 may not
/// give what it declares, which shows only if it is entered.
fn around(guarded: Body, sound: bool) -> Vec<u8> {
    let liar = if sound { num(6) } else { truth(true) };
    let records = vec![
        Record::Register { start: 3 },
        Record::User,
        Record::method(V, NUM, &[], num(1)),
        Record::method(V, NUM, &[NUM], plus(local(0), read(0, 0))),
        Record::method(A, 0, &[NUM], display(local(0))),
        Record::method(AV, NUM, &[BOOL], acts(&[display(num(2)), read(0, 0)])),
        Record::method(A, 0, &[], times(10, &read(0, 0))),
        Record::method(V, NUM, &[], liar),
        Record::method(V, NUM, &[], never()),
        Record::User,
        Record::rule(guarded),
        Record::schedule(vec![0]),
    ];
    Plan::new(records).file()
}

/// Ways to make this many calls, Void by value.
fn ways(count: usize) -> Vec<Body> {
    let reading = equal(read(0, 0), num(3));
    let mut all = vec![
        times(count, &read(0, 0)),
        times(count, &display(num(4))),
        times(count, &call(1, 0, &[])),
    ];
    if count >= 12 {
        let tens = times(count / 11, &call(1, 4, &[]));
        all.push(acts(&[tens, times(count % 11, &display(num(5)))]));
        let nested = display(call(1, 1, &[read(0, 0)]));
        all.push(acts(&[times(count - 4, &read(0, 0)), nested]));
        all.push(when(reading.clone(), times(count - 1, &read(0, 0))));
        // Fewer in the arm that is taken, or that is not.
        for (taken, other) in [(count, 5), (5, count), (count, count)] {
            let arms = |condition: Body, less: usize| {
                choose(
                    condition,
                    times(taken - less.min(taken), &read(0, 0)),
                    times(other - less.min(other), &display(num(1))),
                )
            };
            all.push(arms(truth(true), 0));
            all.push(arms(reading.clone(), 1));
            all.push(arms(not(reading.clone()), 1));
        }
    }
    all
}

/// Totals from 60 to 68, in the body alone and shared with the guard.
pub fn counts() -> Files {
    let mut files = Vec::new();
    for total in (0..4).chain(60..=68) {
        for body in ways(total) {
            files.push(around(always(body), true));
        }
        for in_guard in [1, 10, 31, 60] {
            if in_guard > total {
                continue;
            }
            let guard = acts(&[times(in_guard, &read(0, 0)), truth(true)]);
            for body in ways(total - in_guard) {
                files.push(around(rule(guard.clone(), body), true));
            }
            let closed = acts(&[times(in_guard, &read(0, 0)), truth(false)]);
            let body = times(total, &read(0, 0));
            files.push(around(rule(closed, body), true));
        }
    }
    files
}

/// One more call of every sort after 62 to 64: which test goes first.
pub fn at_the_limit() -> Files {
    let mut files = Vec::new();
    for before in 62..=64 {
        for last in one_more() {
            for fill in [read(0, 0), display(num(4))] {
                let full = times(before, &fill);
                let body = always(acts(&[full, last.clone(), void()]));
                files.push(around(body.clone(), true));
                files.push(around(body, false));
            }
            let guard = acts(&[times(before, &read(0, 0)), truth(true)]);
            files.push(around(rule(guard, dropped(last)), true));
        }
    }
    files
}

/// Calls with arguments of every sort, good and bad.
fn one_more() -> Vec<Body> {
    let mut all = vec![
        read(0, 0),
        call(0, 0, &[num(1)]),
        call(0, 2, &[]),
        call(2, 0, &[]),
        less(read(0, 0), read(0, 0)),
        call(1, 0, &[]),
        call(1, 5, &[]),
        call(1, 6, &[]),
        call(1, 3, &[]),
        call(1, 4, &[]),
        dropped(call(1, 1, &[read(0, 0)])),
    ];
    let arguments = [
        num(1),
        truth(true),
        void(),
        never(),
        local(9),
        read(0, 0),
        call(1, 5, &[]),
        call(1, 6, &[]),
        display(num(1)),
    ];
    for argument in arguments {
        all.push(display(argument.clone()));
        all.push(write(0, 0, argument.clone()));
        all.push(when(argument.clone(), num(1)));
        let only = [argument];
        all.extend((1..=3).map(|method| call(1, method, &only)));
    }
    all
}
