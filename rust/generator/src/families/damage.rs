//! Designs whole, cut at every length, and with one byte replaced.

use super::Files;
use crate::large;
use crate::random::Random;
use crate::samples;

pub fn samples() -> Files {
    let plans = samples::samples();
    let mut files: Files = plans.iter().map(|plan| plan.file()).collect();
    files.push(large::full(32_768).file());
    files
}

/// Every length from nothing to the whole; of a long file a choice of them.
pub fn truncations() -> Files {
    let mut files = Vec::new();
    for plan in samples::samples() {
        let file = plan.file();
        files.extend((0..=file.len()).map(|length| file[..length].to_vec()));
    }
    let file = large::full(32_768).file();
    let lengths = (0..file.len()).step_by(997);
    let last = file.len() - 80..file.len();
    files.extend(lengths.chain(last).map(|length| file[..length].to_vec()));
    files
}

/// Values at the ends of ranges, the letters of the marks, and neighbours.
fn replacements(byte: u8) -> Vec<u8> {
    let mut values = vec![
        0, 1, 2, 3, 4, 5, 6, 7, 8, 9, 10, 11, 12, 32, 33, 64, 65, 128, 255,
    ];
    values.extend(b"RGCUMDLS");
    values.extend([
        byte ^ 1,
        byte ^ 0x20,
        byte.wrapping_add(1),
        byte.wrapping_sub(1),
    ]);
    values.sort_unstable();
    values.dedup();
    values.retain(|value| *value != byte);
    values
}

pub fn damages() -> Files {
    let mut files = Vec::new();
    for plan in samples::samples() {
        let file = plan.file();
        for at in 0..file.len() {
            for value in replacements(file[at]) {
                files.push(with(&file, at, value));
            }
        }
    }
    // The long one at some offsets only.
    let file = large::full(32_768).file();
    let mut random = Random::new(1);
    for _ in 0..60 {
        let at = random.below(file.len());
        files.push(with(&file, at, random.edge()));
    }
    files
}

/// Every value at every offset of two short designs.
pub fn all_bytes() -> Files {
    let mut files = Vec::new();
    for plan in [samples::p10(), samples::liar()] {
        let file = plan.file();
        for at in 0..file.len() {
            files.extend((0..=255).map(|value| with(&file, at, value)));
        }
    }
    files
}

fn with(file: &[u8], at: usize, value: u8) -> Vec<u8> {
    let mut changed = file.to_vec();
    changed[at] = value;
    changed
}
