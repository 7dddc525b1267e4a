//! Random changes to files: nobody knows beforehand what they answer.

use crate::random::Random;
use crate::record::{Body, Plan, Role};

/// Change some bytes of a file.
pub fn mutate_bytes(random: &mut Random, file: &mut Vec<u8>) {
    for _ in 0..random.pick(&[1, 1, 1, 2, 3, 5]) {
        if file.is_empty() {
            file.push(random.byte());
        }
        let at = random.below(file.len());
        match random.below(9) {
            0 => file[at] ^= 1 << random.below(8),
            1..=2 => file[at] = random.edge(),
            3 => file[at] = random.byte(),
            4 => file.insert(at, random.edge()),
            5 => drop(file.remove(at)),
            6 => {
                let end = (at + random.within(1, 8)).min(file.len());
                file.drain(at..end);
            }
            7 => {
                let end = (at + random.within(1, 8)).min(file.len());
                let again = file[at..end].to_vec();
                file.splice(at..at, again);
            }
            _ => {
                let other = random.below(file.len());
                file.swap(at, other);
            }
        }
    }
}

/// Change the order, number or bodies of the records.
pub fn mutate_records(random: &mut Random, plan: &mut Plan) {
    for _ in 0..random.pick(&[1, 1, 2, 3]) {
        if plan.records.is_empty() {
            return;
        }
        let at = random.below(plan.records.len());
        let other = random.below(plan.records.len());
        match random.below(8) {
            0..=1 => plan.records.swap(at, other),
            2 => drop(plan.records.remove(at)),
            3 => {
                let copy = plan.records[at].clone();
                plan.records.insert(other, copy);
            }
            _ => mutate_body(random, plan, at),
        }
    }
}

/// Change a body and keep its record's length right, so that the change
/// is judged as a body and not as a cut.
fn mutate_body(random: &mut Random, plan: &mut Plan, at: usize) {
    let places = plan.places(|record| record.body().is_some());
    let at = match places.is_empty() {
        true => return,
        false => places[at % places.len()],
    };
    let Some(body) = plan.records[at].body() else {
        return;
    };
    let mut body = body.clone();
    if body.bytes.is_empty() {
        return;
    }
    let place = random.below(body.bytes.len());
    match random.below(6) {
        0 => insert(&mut body, place, random.edge()),
        1 => {
            body.bytes.remove(place);
            body.roles.remove(place);
        }
        2 => body.truncate(place),
        _ => body.bytes[place] = random.edge(),
    }
    plan.records[at].set_body(body);
}

fn insert(body: &mut Body, at: usize, byte: u8) {
    body.bytes.insert(at, byte);
    body.roles.insert(at, Role::Number);
}

/// Bytes without any plan.
pub fn noise(random: &mut Random) -> Vec<u8> {
    let length = random.below(48);
    match random.below(3) {
        0 => (0..length).map(|_| random.byte()).collect(),
        1 => (0..length).map(|_| letter(random)).collect(),
        _ => soup(random),
    }
}

/// A letter of the marks, or a small byte.
fn letter(random: &mut Random) -> u8 {
    match random.in_hundred(60) {
        true => random.pick(b"RGCUMDLS"),
        false => random.edge(),
    }
}

/// Marks with anything after them.
fn soup(random: &mut Random) -> Vec<u8> {
    let mut file = Vec::new();
    if random.in_hundred(70) {
        file.extend(b"UM");
    }
    for _ in 0..random.below(6) {
        let mark: &[u8] = random.pick(&[b"RG", b"CR", b"UM", b"MD", b"RL", b"SC"]);
        file.extend(mark);
        for _ in 0..random.below(7) {
            file.push(random.below(6) as u8);
        }
    }
    file
}

/// A rule or method under a good head whose body is small random bytes.
pub fn random_body(random: &mut Random) -> Vec<u8> {
    let mut body = Vec::new();
    for _ in 0..random.within(1, 10) {
        match random.below(4) {
            0 => body.extend([2, random.below(3) as u8]),
            1 => body.extend([3, random.edge()]),
            _ => body.push(random.below(13) as u8),
        }
    }
    let mut file = b"UM".to_vec();
    match random.in_hundred(50) {
        true => file.extend(b"RL"),
        false => file.extend([b'M', b'D', 0, 1, 0]),
    }
    file.extend((body.len() as u16).to_le_bytes());
    file.extend(&body);
    file.extend(b"SC\0");
    file
}
