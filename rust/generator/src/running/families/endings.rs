//! How clocks and runs end: stuck rules among others, quiet and limit.

use crate::families::Files;
use crate::parts::{
    act, acts, always, bind, block, call, choose, display, equal, less, local, not, num, plus,
    read, rule, times, truth, void, when, write,
};
use crate::record::{Body, Plan, Record};

/// A rule that is stuck with this number.
fn stuck_with(number: u8) -> Body {
    always(match number {
        21 => when(num(1), void()),
        22 => acts(&[display(num(8)), local(3)]),
        23 => call(3, 0, &[]),
        24 => call(0, 2, &[]),
        25 => call(0, 1, &[]),
        26 => when(equal(call(0, 1, &[num(1)]), num(1)), void()),
        27 => acts(&[times(64, &read(0, 0)), display(num(1))]),
        _ => block(&vec![bind(num(1)); 17]),
    })
}

/// 0 RG, 1 CR, 2 UM without methods, 3 the rules.
fn rules(bodies: &[Body], schedule: Vec<u8>) -> Vec<u8> {
    let mut records = vec![
        Record::Register { start: 0 },
        Record::Concurrent { ports: 2, start: 0 },
        Record::User,
        Record::User,
    ];
    records.extend(bodies.iter().cloned().map(Record::rule));
    records.push(Record::schedule(schedule));
    Plan::new(records).file()
}

/// Rules of every fate, one after the other, and one that is stuck between
/// them; rule numbers and schedule entries differ.
pub fn stuck() -> Files {
    let mut files = Vec::new();
    let count = |port| write(1, port, plus(read(1, port), num(1)));
    let others = [
        always(acts(&[display(num(11)), write(0, 0, num(5))])),
        always(acts(&[count(0), display(read(1, 0))])),
        rule(truth(false), void()),
        always(acts(&[write(1, 0, num(7)), read(1, 1), void()])),
        always(display(read(0, 0))),
        always(times(2, &write(0, 0, num(2)))),
        always(acts(&[count(1), display(num(12))])),
    ];
    for number in 21..=28 {
        for place in 0..=others.len() {
            // The stuck rule is the first in the file, the others follow.
            let mut bodies = vec![stuck_with(number)];
            bodies.extend(others.iter().cloned());
            let mut schedule: Vec<u8> = (1..=others.len() as u8).collect();
            schedule.insert(place, 0);
            files.push(rules(&bodies, schedule.clone()));
            schedule.retain(|entry| entry % 3 != 2);
            files.push(rules(&bodies, schedule));
        }
        files.push(rules(&[stuck_with(number)], vec![]));
        files.push(full_schedule(number));
    }
    files
}

/// 64 rules, backwards; the stuck one is number 40.
fn full_schedule(number: u8) -> Vec<u8> {
    let mut bodies = vec![always(display(read(1, 0))); 64];
    bodies[40] = stuck_with(number);
    rules(&bodies, (0..64).rev().collect())
}

/// Counts up to a number and is then quiet, stuck or goes on.
pub fn endings() -> Files {
    let mut files = Vec::new();
    for goal in [0, 1, 2, 3, 7] {
        let count = || write(0, 0, plus(read(0, 0), num(1)));
        let below = || less(read(0, 0), num(goal));
        let there = || equal(read(0, 0), num(goal));
        let counting = rule(below(), acts(&[count(), display(read(0, 0))]));
        let alone = [counting.clone()];
        files.push(rules(&alone, vec![0]));
        files.push(rules(&alone, vec![]));
        for number in 21..=28 {
            let mut bad = stuck_with(number);
            // The guard, two bytes, gives way to the condition.
            bad = tail(&bad, 2);
            let waits = rule(there(), bad.clone());
            let chooses = always(choose(there(), bad, void()));
            for last in [waits, chooses] {
                files.push(rules(&[counting.clone(), last.clone()], vec![1, 0]));
                files.push(rules(&[counting.clone(), last], vec![0, 1]));
            }
        }
        // Held back by itself when the goal is reached: quiet all the same.
        let twice = choose(there(), times(2, &count()), count());
        files.push(rules(&[always(twice)], vec![0]));
        // Fires for ever, though nothing changes.
        let idle = rule(not(below()), void());
        files.push(rules(&[counting, idle], vec![0, 1]));
    }
    files.push(Plan::new(vec![Record::schedule(vec![])]).file());
    let lone = block(&[act(num(1)), bind(num(2))]);
    files.push(rules(&[always(lone)], vec![0]));
    files
}

/// A body without its first bytes.
fn tail(body: &Body, skip: usize) -> Body {
    Body {
        bytes: body.bytes[skip..].to_vec(),
        roles: body.roles[skip..].to_vec(),
    }
}
