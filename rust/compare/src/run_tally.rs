//! How varied the clocks and runs were.

use second::{Clocked, Ending, Refusal, Run};

/// The fewest times that each fate, number and ending must have come up.
const ENOUGH: u64 = 50;

#[derive(Default)]
pub struct RunTally {
    pub files: u64,
    clocks: u64,
    displays: u64,
    fates: [u64; 7],
    /// Stuck clocks by number, from 21.
    stuck: [u64; 8],
    /// Refused clocks by number, from 1.
    refused: [u64; 12],
    starts: u64,
    refused_starts: u64,
    /// Limit, quiet, stuck.
    endings: [u64; 3],
    stuck_runs: [u64; 8],
    refused_runs: u64,
}

impl RunTally {
    pub fn clock(&mut self, answer: &Result<Clocked, Refusal>, fates: &[u8]) {
        self.clocks += 1;
        for fate in fates {
            self.fates[usize::from(*fate)] += 1;
        }
        match answer {
            Err(refusal) => self.refused[usize::from(refusal.number) - 1] += 1,
            Ok(Clocked::Done { displays, .. }) => self.displays += *displays as u64,
            Ok(Clocked::Stuck {
                reason, displays, ..
            }) => {
                self.displays += *displays as u64;
                self.stuck[usize::from(reason.number() - 21)] += 1;
            }
        }
    }

    pub fn start(&mut self, answer: &Result<(), Refusal>) {
        self.starts += 1;
        self.refused_starts += u64::from(answer.is_err_and(|refusal| refusal.number == 10));
    }

    pub fn run(&mut self, answer: &Result<Run, Refusal>) {
        let ending = match answer {
            Err(refusal) => {
                self.refused_runs += u64::from(refusal.number == 10);
                return;
            }
            Ok(run) => run.ending,
        };
        match ending {
            Ending::Limit => self.endings[0] += 1,
            Ending::Quiet => self.endings[1] += 1,
            Ending::Stuck { reason, .. } => {
                self.endings[2] += 1;
                self.stuck_runs[usize::from(reason.number() - 21)] += 1;
            }
        }
    }

    /// Every fate, stuck number, refusal and ending often enough.
    pub fn covers(&self) -> bool {
        let rows: [&[u64]; 5] = [
            &self.fates,
            &self.stuck,
            &self.refused,
            &self.endings,
            &self.stuck_runs,
        ];
        let all = rows.concat();
        let tens = [self.refused_starts, self.refused_runs, self.displays];
        all.iter().chain(&tens).all(|times| *times >= ENOUGH)
    }

    pub fn line(&self, seed: u64) -> String {
        format!(
            "compare run: {} files, seed {seed}, {} clocks, {} displays, fates 0..6: {:?}, \
             stuck 21..28: {:?}, refused 1..12: {:?}, starts: {} (10: {}), \
             runs limit/quiet/stuck: {:?}, stuck 21..28: {:?}, 10: {}",
            self.files,
            self.clocks,
            self.displays,
            self.fates,
            self.stuck,
            self.refused,
            self.starts,
            self.refused_starts,
            self.endings,
            self.stuck_runs,
            self.refused_runs
        )
    }
}
