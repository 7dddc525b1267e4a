//! Design files for programs that run them, and states to run them from.

pub mod families;
pub mod known;
pub mod lively;
pub mod states;

pub use families::RUN_FAMILIES;

use crate::design::{design, Size};
use crate::random::Random;
use crate::record::Plan;

use lively::{lively, Mood};

/// The n-th design of a seed. All read; about four in five pass the check.
pub fn nth_design(seed: u64, index: u64) -> Vec<u8> {
    let mut random = Random::of_file(seed ^ 0x7275_6E73, index);
    design_of(&mut random).file()
}

fn design_of(random: &mut Random) -> Plan {
    match random.below(100) {
        0..=27 => lively(random, Mood::small()),
        28..=41 => lively(random, Mood::middle()),
        42..=43 => lively(random, Mood::crowded()),
        44..=46 => lively(random, Mood::busy()),
        47..=48 => lively(random, Mood::brink()),
        49 => families::layers::random(random),
        50..=77 => ill_kinded(random),
        78..=80 => design(random, Size::tiny()),
        81..=87 => design(random, Size::small()),
        88..=90 => design(random, Size::middle()),
        _ => {
            let slips = random.pick(&[20, 60, 200]);
            let size = random.pick(&[Size::tiny(), Size::small()]);
            design(random, size.with_slips(slips))
        }
    }
}

fn ill_kinded(random: &mut Random) -> Plan {
    let slips = random.pick(&[20, 60, 150, 300]);
    let mood = match random.below(20) {
        0 => Mood::busy(),
        1 => Mood::crowded(),
        2..=3 => Mood::brink(),
        4..=8 => Mood::middle(),
        _ => Mood::small(),
    };
    lively(random, mood.with_slips(slips))
}
