//! A design with its state and with room for what its clocks tell.

use crate::design::Design;
use crate::prepared::Prepared;
use crate::refusal::Refusal;
use crate::running::{Ending, Fate, Outcome, DISPLAY_ROOM, FATE_ROOM};
use crate::unknown;

/// A design being run: its state, and the latest clock's fates and displays.
///
/// ```
/// use cantaribol::{Design, Fate, Outcome};
///
/// // A register that starts at 2. Rule 0 displays it, rule 1 makes it 3
/// // while it is 2.
/// let design = Design::read(
///     b"RG\x02\0\0\0UM\
///       RL\x07\0\x02\x01\x0B\x0A\0\0\0\
///       RL\x14\0\x04\x02\x0A\0\0\0\x01\x02\0\0\0\x0A\0\x01\x01\x01\x03\0\0\0\
///       SC\x02\0\x01",
/// )?;
/// let mut board = design.board();
/// board.clock();
/// assert_eq!(board.fates(), [(0, Fate::Fired), (1, Fate::Fired)]);
/// assert_eq!(board.displays(), [2]);
/// board.clock();
/// assert_eq!(board.fates(), [(0, Fate::Fired), (1, Fate::Unavailable)]);
/// assert_eq!(board.displays(), [3]);
///
/// // A host may overwrite registers between clocks.
/// board.state_mut()[0] = 2;
/// assert_eq!(board.clock(), Outcome::Fired { displays: 1 });
/// assert_eq!(board.state()[0], 3);
/// # Ok::<(), cantaribol::Refusal>(())
/// ```
#[derive(Clone, Debug)]
pub struct Board<'a> {
    prepared: Prepared<'a>,
    state: Vec<i32>,
    fates: [u8; FATE_ROOM],
    displays: Vec<i32>,
    /// Of the latest clock: how many entries have a fate, how many displays
    /// were made.
    told: (usize, usize),
}

impl Design<'_> {
    /// The design with its registers at their start values.
    pub fn board(&self) -> Board<'_> {
        Board {
            prepared: self.prepare(),
            state: self.start(),
            fates: [0; FATE_ROOM],
            displays: vec![0; DISPLAY_ROOM],
            told: (0, 0),
        }
    }
}

impl<'a> Board<'a> {
    /// The design that is run.
    pub fn design(&self) -> &'a Design<'a> {
        self.prepared.design()
    }

    /// One value for each instance; a user module's is neither read nor
    /// written.
    pub fn state(&self) -> &[i32] {
        &self.state
    }

    /// The state, to be overwritten between clocks.
    pub fn state_mut(&mut self) -> &mut [i32] {
        &mut self.state
    }

    /// One clock.
    pub fn clock(&mut self) -> Outcome {
        let (fates, displays) = (&mut self.fates, &mut self.displays);
        let outcome = fits(self.prepared.clock(&mut self.state, fates, displays));
        self.told = (self.design().counts().entries, outcome.displays());
        outcome
    }

    /// Up to `n` clocks. Fates and displays are not kept: after it there are
    /// none.
    pub fn run(&mut self, n: u32) -> Ending {
        self.told = (0, 0);
        fits(self.design().run(&mut self.state, n))
    }

    /// The latest clock's fates in schedule order, each with its rule's
    /// number. None before the first clock.
    pub fn fates(&self) -> Vec<(u8, Fate)> {
        let entries = self.design().schedule().iter().zip(&self.fates);
        let named = entries.map(|(rule, byte)| match Fate::of(*byte) {
            Some(fate) => (*rule, fate),
            None => unknown("fate", *byte),
        });
        named.take(self.told.0).collect()
    }

    /// What the latest clock displayed, in order.
    pub fn displays(&self) -> &[i32] {
        &self.displays[..self.told.1]
    }
}

/// A board's buffers have the right lengths, so nothing is refused.
fn fits<T>(answer: Result<T, Refusal>) -> T {
    match answer {
        Ok(answer) => answer,
        Err(refusal) => unreachable!("buffers of the right lengths: {refusal}"),
    }
}
