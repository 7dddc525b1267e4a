//! Calls that clash, or do not: by port, by method, within and across.

use crate::families::Files;
use crate::parts::{
    acts, always, call, choose, display, equal, local, never, num, plus, read, rule, truth, void,
    when, write,
};
use crate::record::{Body, Plan, Record};
use crate::writer::{A, AV, V};

const NUM: u8 = 1;

/// Rules on a CR with these ports and on one more, in order.
fn rules(ports: u8, bodies: &[Body]) -> Vec<u8> {
    let mut records = vec![
        Record::Concurrent { ports, start: 6 },
        Record::Concurrent {
            ports: 4,
            start: 60,
        },
        Record::User,
    ];
    records.extend(bodies.iter().cloned().map(Record::rule));
    records.push(Record::schedule((0..bodies.len() as u8).collect()));
    Plan::new(records).file()
}

/// A use of method `number`: what is read shows, and writes differ.
fn used(number: u8) -> Body {
    match number % 2 {
        0 => display(call(0, number, &[])),
        _ => call(0, number, &[num(100 + i32::from(number))]),
    }
}

/// Every two and three methods in one rule, in guard and body.
pub fn within() -> Files {
    let mut files = Vec::new();
    for ports in 1..=4 {
        // One method too many: that is 24.
        for first in 0..=2 * ports {
            for second in 0..=2 * ports {
                let both = acts(&[used(first), used(second)]);
                files.push(rules(ports, &[always(both)]));
                if first % 2 == 0 {
                    let guard = equal(call(0, first, &[]), num(6));
                    files.push(rules(ports, &[rule(guard, used(second))]));
                }
            }
        }
    }
    for first in 0..8 {
        for second in 0..8 {
            for third in 0..8 {
                let all = acts(&[used(first), used(second), used(third)]);
                files.push(rules(4, &[always(all)]));
            }
        }
    }
    files
}

/// Two methods in an earlier rule, two in a later one; and three rules.
pub fn across() -> Files {
    let mut files = Vec::new();
    for which in 0..8usize.pow(4) {
        let method = |place| (which / 8usize.pow(place) % 8) as u8;
        let earlier = acts(&[used(method(0)), used(method(1))]);
        let later = acts(&[used(method(2)), used(method(3))]);
        files.push(rules(4, &[always(earlier), always(later)]));
    }
    for which in 0..8usize.pow(3) {
        let method = |place| (which / 8usize.pow(place) % 8) as u8;
        let single: Vec<Body> = (0..3).map(|place| always(used(method(place)))).collect();
        files.push(rules(4, &single));
    }
    for ports in 1..=3 {
        for first in 0..=2 * ports {
            for second in 0..=2 * ports {
                let bodies = [always(used(first)), always(used(second))];
                files.push(rules(ports, &bodies));
            }
        }
    }
    files.extend(other_register());
    files
}

/// The same methods on two registers: no clash at all.
fn other_register() -> Files {
    let mut files = Vec::new();
    for first in 0..8 {
        for second in 0..8 {
            let other = match second % 2 {
                0 => display(call(1, second, &[])),
                _ => call(1, second, &[num(7)]),
            };
            let both = acts(&[used(first), other.clone()]);
            files.push(rules(4, &[always(both)]));
            files.push(rules(4, &[always(used(first)), always(other)]));
        }
    }
    files
}

/// 0 RG; 1 and 2 UMs with the same six methods; 3 a UM whose methods call
/// them; 4 the rules.
fn with_methods(bodies: &[Body]) -> Vec<u8> {
    let mut records = vec![Record::Register { start: 1 }];
    for _ in 0..2 {
        records.extend([
            Record::User,
            Record::method(V, NUM, &[], num(1)),
            Record::method(V, NUM, &[NUM], plus(local(0), num(1))),
            Record::method(A, 0, &[], void()),
            Record::method(A, 0, &[NUM], void()),
            Record::method(AV, NUM, &[], num(2)),
            Record::method(AV, NUM, &[NUM], local(0)),
        ]);
    }
    records.push(Record::User);
    for method in 0..6 {
        records.push(Record::method(AV, NUM, &[], acts(&[of(1, method), num(3)])));
    }
    records.push(Record::User);
    records.extend(bodies.iter().cloned().map(always).map(Record::rule));
    records.push(Record::schedule((0..bodies.len() as u8).collect()));
    Plan::new(records).file()
}

/// A call of one of the six methods, with an argument where it wants one.
fn of(instance: u8, method: u8) -> Body {
    match method % 2 {
        0 => call(instance, method, &[]),
        _ => call(instance, method, &[num(8)]),
    }
}

/// Every two user methods, of one instance, of two, and by way of callees.
pub fn user_methods() -> Files {
    let mut files = Vec::new();
    let mut add = |one: Body, other: Body| {
        let both = acts(&[one.clone(), other.clone(), void()]);
        files.push(with_methods(&[both]));
        let alone = |body: Body| acts(&[body, void()]);
        files.push(with_methods(&[alone(one.clone()), alone(other.clone())]));
        // Between them a rule that fires on its own.
        let between = write(0, 0, num(5));
        files.push(with_methods(&[alone(one), between, alone(other)]));
    };
    for first in 0..6 {
        for second in 0..6 {
            add(of(1, first), of(1, second));
            add(of(1, first), of(2, second));
            add(of(1, first), call(3, second, &[]));
            add(call(3, first, &[]), of(1, second));
            add(call(3, first, &[]), call(3, second, &[]));
        }
    }
    files
}

/// A rule that does not fire, for every reason, and then one that would
/// clash with its calls had they been kept; and the first reason of several.
pub fn forgotten() -> Files {
    let mut files = Vec::new();
    for first in 0..8 {
        let held = |method| held_back(first, method);
        for second in 0..8 {
            let later = always(used(second));
            for earlier in held(second) {
                files.push(rules(4, &[earlier.clone(), later.clone()]));
                let kept = always(write(0, 0, num(1)));
                files.push(rules(4, &[kept, earlier, later.clone()]));
            }
        }
    }
    files
}

/// Rules with a use of `method` that are unavailable or held back, and some
/// for which several fates could be given.
fn held_back(method: u8, other: u8) -> Vec<Body> {
    let inside = acts(&[write(1, 0, num(1)), read(1, 1), void()]);
    let twice = acts(&[write(1, 0, num(1)), write(1, 0, num(2))]);
    let gone = when(truth(false), void());
    let mut all = vec![
        always(acts(&[used(method), gone.clone()])),
        always(acts(&[used(method), inside.clone()])),
        always(acts(&[used(method), twice.clone()])),
        always(acts(&[twice.clone(), inside, used(method)])),
        always(acts(&[twice, used(method), gone])),
        always(acts(&[used(method), used(other), display(never())])),
    ];
    if method.is_multiple_of(2) {
        let reads = equal(call(0, method, &[]), num(-99));
        all.push(rule(reads.clone(), void()));
        all.push(rule(
            truth(true),
            choose(reads, void(), when(truth(false), void())),
        ));
    }
    all
}
