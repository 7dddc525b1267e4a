//! What the files reached: every number that document 01 hands back.

use std::fmt;

use cantaribol_sys::answer::{is_reason, is_refusal, number};

#[derive(Debug, Default)]
pub struct Reached {
    pub files: u64,
    pub calls: u64,
    /// By number, from 1.
    refusals: [u64; 12],
    /// Of the check and of stuck clocks, by number from 21.
    failed: [u64; 8],
    stuck: [u64; 8],
    fates: [u64; 7],
    passed: u64,
    /// Limit, quiet, stuck.
    endings: [u64; 3],
}

impl Reached {
    pub fn refusal(&mut self, answer: u64) {
        if is_refusal(answer) {
            self.refusals[usize::from(number(answer)) - 1] += 1;
        }
    }

    pub fn check(&mut self, answer: u64) {
        self.passed += u64::from(answer == 0);
        if is_reason(answer) {
            self.failed[usize::from(number(answer)) - 21] += 1;
        }
    }

    pub fn clock(&mut self, answer: u64, fates: &[u8]) {
        if is_reason(answer) {
            self.stuck[usize::from(number(answer)) - 21] += 1;
        }
        for fate in fates {
            self.fates[usize::from(*fate)] += 1;
        }
    }

    pub fn run(&mut self, answer: u64) {
        let ending = match number(answer) {
            0 => 0,
            100 => 1,
            _ => 2,
        };
        self.endings[ending] += 1;
    }

    /// What was never reached, by name; empty when all was.
    pub fn missing(&self) -> Vec<String> {
        let rows: [(&str, &[u64], usize); 5] = [
            ("refusal", &self.refusals, 1),
            ("reason of the check", &self.failed, 21),
            ("reason of a stuck clock", &self.stuck, 21),
            ("fate", &self.fates, 0),
            ("ending", &self.endings, 0),
        ];
        let mut missing = Vec::new();
        for (name, row, first) in rows {
            let never = row.iter().enumerate().filter(|(_, times)| **times == 0);
            missing.extend(never.map(|(at, _)| format!("{name} {}", first + at)));
        }
        if self.passed == 0 {
            missing.push("a design that passes the check".to_string());
        }
        missing
    }
}

impl fmt::Display for Reached {
    fn fmt(&self, out: &mut fmt::Formatter) -> fmt::Result {
        writeln!(
            out,
            "{} files, {} calls at each edge",
            self.files, self.calls
        )?;
        writeln!(out, "refusals 1 to 12           {:?}", self.refusals)?;
        writeln!(out, "check 21 to 28             {:?}", self.failed)?;
        writeln!(out, "check passed               {}", self.passed)?;
        writeln!(out, "stuck clocks 21 to 28      {:?}", self.stuck)?;
        writeln!(out, "fates 0 to 6               {:?}", self.fates)?;
        write!(out, "runs limit, quiet, stuck   {:?}", self.endings)
    }
}

#[cfg(test)]
mod tests {
    use super::*;

    #[test]
    fn what_is_missing_has_a_name() {
        let mut reached = Reached::default();
        assert_eq!(reached.missing().len(), 12 + 8 + 8 + 7 + 3 + 1);
        (1..=11).for_each(|number| reached.refusal(number));
        (21..=28).for_each(|number| reached.check(number + 256 * 7));
        (21..=27).for_each(|number| reached.clock(number, &[0, 1, 2, 3, 5, 6]));
        [0, 100, 21].iter().for_each(|answer| reached.run(*answer));
        reached.check(0);
        let missing = ["refusal 12", "reason of a stuck clock 28", "fate 4"];
        assert_eq!(reached.missing(), missing);
    }
}
