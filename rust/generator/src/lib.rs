//! Design files for comparing programs that read, run and check them: random
//! ones from a seed, and systematic families. All is determined by the seed.

pub mod bundle;
pub mod cases;
pub mod design;
pub mod families;
pub mod large;
pub mod mutate;
pub mod parts;
pub mod random;
pub mod record;
pub mod running;
pub mod samples;
pub mod shape;
pub mod spoil;
pub mod writer;

pub use families::FAMILIES;

use design::{design, Size};
use random::Random;
use record::{Plan, Record};

/// The n-th file of a seed.
pub fn nth_file(seed: u64, index: u64) -> Vec<u8> {
    let mut random = Random::of_file(seed, index);
    let random = &mut random;
    match random.below(1000) {
        0..=149 => design(random, Size::tiny()).file(),
        150..=349 => design(random, Size::small()).file(),
        350..=369 => design(random, Size::middle()).file(),
        370..=509 => ill_kinded(random).file(),
        510..=649 => mutated_bytes(random),
        650..=769 => mutated_records(random),
        770..=799 => truncated(random),
        800..=909 => spoilt(random),
        910..=934 => mutate::noise(random),
        935..=964 => mutate::random_body(random),
        965..=989 => deep(random),
        990..=997 => large::crowd(random).file(),
        _ => large(random),
    }
}

fn ill_kinded(random: &mut Random) -> Plan {
    let slips = random.pick(&[20, 60, 200]);
    let size = match random.below(10) {
        0 => Size::middle(),
        1..=5 => Size::small(),
        _ => Size::tiny(),
    };
    design(random, size.with_slips(slips))
}

/// A design to be spoilt in some way.
fn base(random: &mut Random) -> Plan {
    let size = random.pick(&[Size::tiny(), Size::tiny(), Size::small()]);
    let slips = random.pick(&[0, 0, 50]);
    design(random, size.with_slips(slips))
}

fn mutated_bytes(random: &mut Random) -> Vec<u8> {
    let mut file = base(random).file();
    mutate::mutate_bytes(random, &mut file);
    file
}

fn mutated_records(random: &mut Random) -> Vec<u8> {
    let mut plan = base(random);
    mutate::mutate_records(random, &mut plan);
    plan.file()
}

fn truncated(random: &mut Random) -> Vec<u8> {
    let mut file = base(random).file();
    let length = random.below(file.len());
    file.truncate(length);
    file
}

/// A wanted refusal; sometimes with further changes, so that two faults
/// meet in one file.
fn spoilt(random: &mut Random) -> Vec<u8> {
    let plan = base(random);
    // Number 1 needs a long file, so it is left to few.
    let number = match random.below(40) {
        0 => 1,
        _ => random.within(2, 9) as u8,
    };
    let mut file = spoil::spoil(random, &plan, number);
    if number != 1 && random.in_hundred(30) {
        mutate::mutate_bytes(random, &mut file);
    }
    file
}

/// A rule and a method of some depth around the limit.
fn deep(random: &mut Random) -> Vec<u8> {
    let depth = random.pick(&[14, 15, 15, 16, 16, 16, 17]);
    let body = shape::nest(depth, &mut |_| random.below(shape::PLACES));
    let mut rule = body.clone();
    rule.append(&body);
    let records = vec![
        Record::Register { start: 1 },
        Record::User,
        Record::method(0, 2, &[], body),
        Record::rule(rule),
        Record::schedule(vec![0]),
    ];
    Plan::new(records).file()
}

/// A file of about the largest size, sometimes changed.
fn large(random: &mut Random) -> Vec<u8> {
    let length = match random.below(4) {
        0 => spoil::FILE_LIMIT,
        1 => spoil::FILE_LIMIT + 1,
        2 => random.within(1000, spoil::FILE_LIMIT),
        _ => random.within(spoil::FILE_LIMIT - 500, spoil::FILE_LIMIT + 20),
    };
    let mut file = large::of_length(random, length).file();
    if random.in_hundred(30) {
        mutate::mutate_bytes(random, &mut file);
    }
    file
}
