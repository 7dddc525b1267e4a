//! States to begin with, and what a host overwrites between clocks.

use crate::random::Random;

/// The rails of the board's numbers, and their neighbours.
const RAILS: [i32; 8] = [
    i32::MAX,
    i32::MIN,
    i32::MAX - 1,
    i32::MIN + 1,
    1 << 30,
    -(1 << 30),
    -1,
    0,
];

fn word(random: &mut Random) -> i32 {
    match random.below(8) {
        0 => random.pick(&RAILS),
        1 => random.draw() as i32,
        2 => random.number(),
        _ => random.below(8) as i32 - 1,
    }
}

/// A state of this length: mostly small, all at the rails, all equal or any.
/// Entries of user instances hold something too; nobody may touch them.
pub fn state(random: &mut Random, length: usize) -> Vec<i32> {
    match random.below(10) {
        0 => (0..length).map(|_| random.pick(&RAILS)).collect(),
        1 => (0..length).map(|_| random.draw() as i32).collect(),
        2 => vec![random.number(); length],
        3..=4 => (0..length).map(|_| random.below(3) as i32).collect(),
        _ => (0..length).map(|_| word(random)).collect(),
    }
}

/// What a host writes between two clocks: mostly nothing, or some entries.
pub fn overwrite(random: &mut Random, state: &mut [i32]) {
    if state.is_empty() || random.in_hundred(60) {
        return;
    }
    for _ in 0..random.within(1, 3) {
        let at = random.below(state.len());
        state[at] = word(random);
    }
}
