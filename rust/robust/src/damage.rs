//! Damaged files: valid ones changed, cut, joined or spoilt, and random bytes.

use cantaribol_sys::FILE_LIMIT;
use generator::design::{design, Size};
use generator::mutate;
use generator::random::Random;
use generator::running::nth_design;
use generator::spoil::spoil;

/// One in so many designs is tried as it is, so that its clocks are seen too.
const WHOLE: u64 = 8;

/// The n-th damaged file of a seed.
pub fn nth_damaged(seed: u64, index: u64) -> Vec<u8> {
    let mut random = Random::of_file(seed ^ 0x6461_6D61, index);
    let random = &mut random;
    match random.below(200) {
        0..=69 => changed(random, nth_design(seed, index)),
        70..=109 => rearranged(random),
        110..=129 => cut(random, nth_design(seed, index)),
        130..=139 => joined(random, nth_design(seed, index), nth_design(seed, index + 1)),
        140..=149 => mutate::noise(random),
        150..=159 => mutate::random_body(random),
        160..=168 => any_bytes(random, 300),
        169 => any_bytes(random, FILE_LIMIT + 10),
        _ => spoilt(random),
    }
}

/// The n-th design of a seed undamaged, if it is one of those tried.
pub fn nth_whole(seed: u64, index: u64) -> Option<Vec<u8>> {
    index.is_multiple_of(WHOLE).then(|| nth_design(seed, index))
}

fn changed(random: &mut Random, mut file: Vec<u8>) -> Vec<u8> {
    mutate::mutate_bytes(random, &mut file);
    file
}

/// Records in another order, or bodies changed under a right length: many
/// still read.
fn rearranged(random: &mut Random) -> Vec<u8> {
    let slips = random.pick(&[0, 0, 60]);
    let size = random.pick(&[Size::tiny(), Size::small()]);
    let mut plan = design(random, size.with_slips(slips));
    mutate::mutate_records(random, &mut plan);
    plan.file()
}

fn cut(random: &mut Random, mut file: Vec<u8>) -> Vec<u8> {
    file.truncate(random.below(file.len()));
    file
}

/// The beginning of one and the end of another.
fn joined(random: &mut Random, mut first: Vec<u8>, second: Vec<u8>) -> Vec<u8> {
    first.truncate(random.below(first.len() + 1));
    first.extend(&second[random.below(second.len() + 1)..]);
    first
}

fn any_bytes(random: &mut Random, most: usize) -> Vec<u8> {
    (0..random.below(most + 1)).map(|_| random.byte()).collect()
}

/// A file that is refused with a wanted number. Number 1 needs a long file,
/// so it is left to few.
fn spoilt(random: &mut Random) -> Vec<u8> {
    let number = match random.below(40) {
        0 => 1,
        _ => random.within(2, 9) as u8,
    };
    let plan = design(random, Size::tiny());
    spoil(random, &plan, number)
}
