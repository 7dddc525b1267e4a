//! As deep as it goes: 64 instances, each calling down from depth 16.

use crate::families::Files;
use crate::parts::{
    acts, always, call, choose, display, equal, local, num, plus, read, truth, when, write,
};
use crate::record::{Body, Plan, Record};
use crate::writer::V;

const NUM: u8 = 1;

/// A whole around the part, one deeper, with a Num's value.
fn wrapped(part: Body, way: usize) -> Body {
    match way % 7 {
        0 => plus(part, num(1)),
        1 => plus(num(1), part),
        2 => choose(truth(true), part, num(0)),
        3 => choose(truth(false), num(0), part),
        4 => when(truth(true), part),
        5 => acts(&[part]),
        _ => acts(&[num(1), part]),
    }
}

/// The part at depth 16, or at 15 when it has parts itself.
fn sunk(part: Body, depth: usize, way: usize) -> Body {
    (1..depth).fold(part, |inner, level| wrapped(inner, way + level))
}

/// 0 an RG, then UMs up to 63 in all; each method calls the one below it
/// from depth 16. The deepest is stuck where `bad` says so.
fn deep(parameters: usize, way: usize, bad: Option<Body>) -> Vec<u8> {
    let mut records = vec![Record::Register { start: 4 }];
    let kinds = vec![NUM; parameters];
    // With an argument the call itself stands one higher.
    let depth = if parameters > 0 { 15 } else { 16 };
    for instance in 1..63u8 {
        let inner = match (instance, &bad) {
            (1, Some(bad)) => bad.clone(),
            (1, None) => read(0, 0),
            _ => {
                let arguments: Vec<Body> = (0..parameters).map(|at| local(at as u8)).collect();
                call(instance - 1, 0, &arguments)
            }
        };
        records.push(Record::User);
        let body = sunk(inner, depth, way + usize::from(instance));
        records.push(Record::method(V, NUM, &kinds, body));
    }
    let arguments = vec![num(7); parameters];
    let shown = display(sunk(call(62, 0, &arguments), depth - 1, way));
    records.push(Record::User);
    records.push(Record::rule(always(shown)));
    records.push(Record::rule(always(write(0, 0, num(5)))));
    records.push(Record::schedule(vec![0, 1]));
    Plan::new(records).file()
}

pub fn deepest() -> Files {
    let mut files = Vec::new();
    for way in 0..7 {
        for parameters in [0, 1, 4] {
            files.push(deep(parameters, way, None));
            files.push(deep(parameters, way, Some(local(9))));
            files.push(deep(parameters, way, Some(truth(true))));
            files.push(deep(parameters, way, Some(call(1, 0, &[]))));
            files.push(deep(parameters, way, Some(call(0, 2, &[]))));
            files.push(deep(parameters, way, Some(read(0, 0))));
        }
    }
    files.extend((0..7).map(conditions));
    files
}

/// Calls down in conditions and guards, where all is pure.
fn conditions(way: usize) -> Vec<u8> {
    let mut records = vec![Record::Register { start: 4 }];
    for instance in 1..63u8 {
        let inner = match instance {
            1 => read(0, 0),
            _ => call(instance - 1, 0, &[]),
        };
        let asked = equal(sunk(inner, 10, way), num(i32::from(instance)));
        let body = match way % 2 {
            0 => choose(asked, num(1), num(2)),
            _ => choose(asked, num(2), num(1)),
        };
        records.push(Record::User);
        records.push(Record::method(V, NUM, &[], body));
    }
    records.push(Record::User);
    records.push(Record::rule(always(display(call(62, 0, &[])))));
    records.push(Record::schedule(vec![0]));
    Plan::new(records).file()
}
