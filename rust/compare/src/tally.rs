//! How varied the files were.

use crate::judge::Agreement;

#[derive(Default)]
pub struct Tally {
    /// Files by number; at 0 those that read.
    numbers: [u64; 10],
    random: u64,
    random_reads: u64,
    parts: u64,
}

/// The fewest files that each number must have had.
const ENOUGH: u64 = 50;

impl Tally {
    pub fn add(&mut self, agreement: &Agreement, random: bool) {
        self.numbers[usize::from(agreement.number)] += 1;
        self.parts += agreement.parts;
        self.random += u64::from(random);
        self.random_reads += u64::from(random && agreement.number == 0);
    }

    pub fn files(&self) -> u64 {
        self.numbers.iter().sum()
    }

    /// Each number often enough, and a quarter of the random files reads.
    pub fn covers(&self) -> bool {
        let reached = self.numbers.iter().all(|times| *times >= ENOUGH);
        reached && 4 * self.random_reads >= self.random
    }

    pub fn line(&self, seed: u64) -> String {
        let mut line = format!("compare read: {} files, seed {seed}, ", self.files());
        line += &format!("reads: {} ", self.numbers[0]);
        line += &format!("({} of {} random), ", self.random_reads, self.random);
        line += &format!("parts: {}, numbers:", self.parts);
        for number in 1..=9 {
            line += &format!(" {number}:{}", self.numbers[number]);
        }
        line
    }
}
