//! Layers of methods that call the layer below more than once: the calls a
//! rule could make pass every machine word, though the file stays small.

use crate::families::Files;
use crate::parts::{
    acts, always, call, choose, display, num, plus, read, rule, times, truth, void,
};
use crate::random::Random;
use crate::record::{Body, Plan, Record};
use crate::writer::V;

const NUM: u8 = 1;

/// One call of layer `at` could make 2^(at + 1) - 1 calls, itself included:
/// layer 0 makes none, each other one calls the layer below twice.
fn doubling(layers: u8) -> Vec<Record> {
    let mut records = Vec::new();
    for layer in 0..layers {
        let body = match layer {
            0 => num(1),
            _ => plus(call(layer - 1, 0, &[]), call(layer - 1, 0, &[])),
        };
        records.push(Record::User);
        records.push(Record::method(V, NUM, &[], body));
    }
    records
}

/// Calls of layers that could make exactly `total` calls altogether.
fn exactly(total: u128, layers: u8) -> Body {
    let mut left = total;
    let mut parts = Vec::new();
    for layer in (0..layers).rev() {
        let cost = (1u128 << (layer + 1)) - 1;
        while left >= cost {
            left -= cost;
            parts.push(call(layer, 0, &[]));
        }
    }
    let mut blocks: Vec<Body> = parts.chunks(31).map(acts).collect();
    blocks.push(void());
    acts(&blocks)
}

/// A rule of exactly so many possible calls; with `behind` they are all in
/// one method but the call of it.
fn total(total: u128, behind: bool) -> Plan {
    let layers = if behind { 61 } else { 62 };
    let mut records = doubling(layers);
    let body = match behind {
        false => exactly(total, layers),
        true => {
            let most = acts(&[exactly(total - 1, layers), num(1)]);
            records.push(Record::User);
            records.push(Record::method(V, NUM, &[], most));
            acts(&[call(layers, 0, &[]), void()])
        }
    };
    records.push(Record::User);
    records.push(Record::rule(always(body)));
    records.push(Record::schedule(vec![0]));
    Plan::new(records)
}

pub fn layers() -> Files {
    let mut plans = Vec::new();
    for count in (1..=3).chain(60..=70) {
        plans.push(total(count, false));
        plans.push(total(count, true));
    }
    for power in [8, 15, 16, 31, 32, 33, 62, 63, 64, 65] {
        for more in [0, 1, 5, 63, 64, 65] {
            plans.push(total((1 << power) + more, false));
            plans.push(total((1 << power) + more, true));
        }
        plans.push(total((1 << power) - 1, false));
    }
    let mut files: Files = plans.iter().map(Plan::file).collect();
    for layers in [2, 5, 6, 7, 31, 32, 62, 63] {
        files.push(topped(
            layers,
            &|below| plus(below.clone(), below.clone()),
            void(),
        ));
    }
    files
}

/// A few calls, or near a power of two.
pub fn random(random: &mut Random) -> Plan {
    let more = random.below(70) as u128 + 1;
    let count = match random.below(4) {
        0 => more,
        1 => (1 << random.within(7, 66)) + more,
        _ => (1 << random.pick(&[32, 63, 64])) + more,
    };
    total(count, random.in_hundred(50))
}

/// So many layers and a rule that calls the topmost, with more beside it.
fn topped(layers: u8, join: &dyn Fn(&Body) -> Body, more: Body) -> Vec<u8> {
    let mut records = vec![Record::User, Record::method(V, NUM, &[], num(1))];
    for layer in 1..layers {
        records.push(Record::User);
        let body = join(&call(layer - 1, 0, &[]));
        records.push(Record::method(V, NUM, &[], body));
    }
    records.push(Record::User);
    let body = acts(&[call(layers - 1, 0, &[]), more]);
    records.push(Record::rule(always(body)));
    records.push(Record::schedule(vec![0]));
    Plan::new(records).file()
}

/// A call of the layer below in both arms counts once, so these pass; a walk
/// into every call would take 2^62 steps. And arms of different cost.
pub fn either_arm() -> Files {
    let mut files = Vec::new();
    let joins: [&dyn Fn(&Body) -> Body; 4] = [
        &|below| choose(truth(true), below.clone(), below.clone()),
        &|below| choose(truth(false), below.clone(), below.clone()),
        &|below| choose(truth(true), num(0), below.clone()),
        &|below| choose(truth(true), below.clone(), num(0)),
    ];
    for join in joins {
        for layers in [1, 2, 20, 61, 62, 63] {
            for more in [0, 1, 2, 3] {
                let shown = times(more, &display(num(6)));
                files.push(topped(layers, join, shown));
            }
        }
    }
    files.extend(conditions());
    files
}

/// The condition's calls count beside the larger arm's.
fn conditions() -> Files {
    let mut files = Vec::new();
    for condition in 0..=3 {
        for then in 60..=64 {
            for otherwise in [0, 61, 64] {
                let guard = acts(&[times(condition, &read(0, 0)), truth(true)]);
                let one = times(then, &read(0, 0));
                let other = times(otherwise, &display(num(2)));
                let records = vec![
                    Record::Register { start: 0 },
                    Record::User,
                    Record::rule(always(choose(guard.clone(), one.clone(), other.clone()))),
                    Record::rule(rule(guard, choose(truth(false), one, other))),
                    Record::schedule(vec![0, 1]),
                ];
                files.push(Plan::new(records).file());
            }
        }
    }
    files
}
