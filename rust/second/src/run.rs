//! A run of n clocks.

use std::convert::Infallible;

use crate::clock::{test_state, Clocked, Runner};
use crate::design::{Design, Refusal};
use crate::value::Reason;

#[derive(Clone, Copy, Debug, PartialEq, Eq)]
pub enum Ending {
    Limit,
    Quiet,
    Stuck { rule: u8, reason: Reason },
}

/// `count` is the clocks in which a rule fired; a stuck one never counts.
#[derive(Clone, Copy, Debug, PartialEq, Eq)]
pub struct Run {
    pub ending: Ending,
    pub count: u32,
}

/// A run tests the state's length only, as it keeps no fates or displays.
pub fn run(design: &Design, state: &mut [i32], n: u32) -> Result<Run, Refusal> {
    test_state(design, state)?;
    let tell = |_: u32, _: &Runner| Ok::<(), Infallible>(());
    match Runner::new(design).run(state, n, tell) {
        Ok(run) => Ok(run),
        Err(never) => match never {},
    }
}

impl Runner<'_> {
    /// Up to n clocks; each is told with its number before it is judged.
    pub fn run<E>(
        &mut self,
        state: &mut [i32],
        n: u32,
        mut tell: impl FnMut(u32, &Self) -> Result<(), E>,
    ) -> Result<Run, E> {
        let mut count = 0;
        let mut ending = Ending::Limit;
        for clock in 0..n {
            let answer = self.clock(state);
            tell(clock, self)?;
            match answer {
                Clocked::Done { fired: true, .. } => count += 1,
                Clocked::Done { fired: false, .. } => {
                    ending = Ending::Quiet;
                    break;
                }
                Clocked::Stuck { rule, reason, .. } => {
                    ending = Ending::Stuck { rule, reason };
                    break;
                }
            }
        }
        Ok(Run { ending, count })
    }
}
