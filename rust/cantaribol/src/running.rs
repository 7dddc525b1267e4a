//! Clocks and runs on buffers that the caller lends.

use std::fmt;

use cantaribol_sys::answer::{count, is_refusal, middle, number};

use crate::design::Design;
use crate::reason::Reason;
use crate::refusal::Refusal;
use crate::unknown;

/// The entries that a fate buffer must have at least.
pub const FATE_ROOM: usize = cantaribol_sys::FATE_ROOM;

/// The entries that a display buffer must have at least.
pub const DISPLAY_ROOM: usize = cantaribol_sys::DISPLAY_ROOM;

/// What became of a schedule entry in one clock.
///
/// ```
/// use cantaribol::Fate;
///
/// let letters: String = (0..7).map(|byte| Fate::of(byte).unwrap().letter()).collect();
/// assert_eq!(letters, "FUAEHS-");
/// assert_eq!(Fate::of(7), None);
/// ```
#[derive(Clone, Copy, Debug, PartialEq, Eq, Hash)]
pub enum Fate {
    /// 0, F: it fired; its writes are done.
    Fired,
    /// 1, U: its guard, or a `when` on the way, said no.
    Unavailable,
    /// 2, A: two of its own calls clash.
    Inside,
    /// 3, E: a call of its clashes with one of an earlier fired rule.
    Earlier,
    /// 4, H: a method that is there only once is called twice.
    Hardware,
    /// 5, S: it is stuck, and with it the clock.
    Stuck,
    /// 6, -: a rule before it is stuck.
    NotReached,
}

/// All fates, in the order of their numbers.
const FATES: [Fate; 7] = [
    Fate::Fired,
    Fate::Unavailable,
    Fate::Inside,
    Fate::Earlier,
    Fate::Hardware,
    Fate::Stuck,
    Fate::NotReached,
];

impl Fate {
    /// The fate that an entry of the fate buffer stands for.
    pub fn of(byte: u8) -> Option<Self> {
        FATES.get(usize::from(byte)).copied()
    }

    /// Document 01's number, 0 to 6.
    pub fn number(self) -> u8 {
        match self {
            Fate::Fired => 0,
            Fate::Unavailable => 1,
            Fate::Inside => 2,
            Fate::Earlier => 3,
            Fate::Hardware => 4,
            Fate::Stuck => 5,
            Fate::NotReached => 6,
        }
    }

    /// The letter that the lister prints.
    pub fn letter(self) -> char {
        match self {
            Fate::Fired => 'F',
            Fate::Unavailable => 'U',
            Fate::Inside => 'A',
            Fate::Earlier => 'E',
            Fate::Hardware => 'H',
            Fate::Stuck => 'S',
            Fate::NotReached => '-',
        }
    }
}

impl fmt::Display for Fate {
    fn fmt(&self, out: &mut fmt::Formatter) -> fmt::Result {
        out.write_str(match self {
            Fate::Fired => "fired",
            Fate::Unavailable => "unavailable",
            Fate::Inside => "conflict inside the rule",
            Fate::Earlier => "conflict with an earlier fired rule",
            Fate::Hardware => "hardware conflict",
            Fate::Stuck => "stuck",
            Fate::NotReached => "not reached",
        })
    }
}

/// What one clock answers. `displays` is how many it made.
#[derive(Clone, Copy, Debug, PartialEq, Eq, Hash)]
pub enum Outcome {
    /// Some rule fired.
    Fired {
        /// How many displays the clock made.
        displays: usize,
    },
    /// No rule fired, so nothing was displayed, and every later clock is the
    /// same.
    Quiet,
    /// A rule is stuck, and the state is as before the clock.
    Stuck {
        /// The number of the stuck rule.
        rule: u8,
        /// Why it is stuck.
        reason: Reason,
        /// How many displays were made before.
        displays: usize,
    },
}

impl Outcome {
    /// How many displays the clock made.
    pub fn displays(self) -> usize {
        match self {
            Outcome::Fired { displays } | Outcome::Stuck { displays, .. } => displays,
            Outcome::Quiet => 0,
        }
    }

    pub(crate) fn unpacked(answer: u64) -> Result<Self, Refusal> {
        if is_refusal(answer) {
            return Err(Refusal::unpacked(answer));
        }
        let displays = count(answer) as usize;
        Ok(match (number(answer), middle(answer)) {
            (0, 0) => Outcome::Quiet,
            (0, _) => Outcome::Fired { displays },
            (number, rule) => Outcome::Stuck {
                rule,
                reason: reason(number),
                displays,
            },
        })
    }
}

impl fmt::Display for Outcome {
    fn fmt(&self, out: &mut fmt::Formatter) -> fmt::Result {
        match self {
            Outcome::Fired { displays } => write!(out, "fired, {displays} displays"),
            Outcome::Quiet => out.write_str("quiet"),
            Outcome::Stuck { rule, reason, .. } => stuck_words(out, *rule, *reason),
        }
    }
}

/// How a run ended. `count` is the clocks in which a rule fired; a stuck
/// clock never counts.
#[derive(Clone, Copy, Debug, PartialEq, Eq, Hash)]
pub enum Ending {
    /// All the clocks asked for were run, and a rule fired in each.
    Limit {
        /// Clocks in which a rule fired.
        count: u32,
    },
    /// A clock came in which nothing fired.
    Quiet {
        /// Clocks in which a rule fired.
        count: u32,
    },
    /// A clock came in which a rule was stuck.
    Stuck {
        /// Clocks in which a rule fired, the stuck one left out.
        count: u32,
        /// The number of the stuck rule.
        rule: u8,
        /// Why it is stuck.
        reason: Reason,
    },
}

impl Ending {
    /// Clocks in which a rule fired.
    pub fn count(self) -> u32 {
        match self {
            Ending::Limit { count } | Ending::Quiet { count } | Ending::Stuck { count, .. } => {
                count
            }
        }
    }

    fn unpacked(answer: u64) -> Result<Self, Refusal> {
        if is_refusal(answer) {
            return Err(Refusal::unpacked(answer));
        }
        let count = count(answer) as u32;
        Ok(match number(answer) {
            0 => Ending::Limit { count },
            100 => Ending::Quiet { count },
            number => Ending::Stuck {
                count,
                rule: middle(answer),
                reason: reason(number),
            },
        })
    }
}

impl fmt::Display for Ending {
    fn fmt(&self, out: &mut fmt::Formatter) -> fmt::Result {
        match self {
            Ending::Limit { count } => write!(out, "limit, after {count} clocks that fired"),
            Ending::Quiet { count } => write!(out, "quiet, after {count} clocks that fired"),
            Ending::Stuck {
                count,
                rule,
                reason,
            } => {
                stuck_words(out, *rule, *reason)?;
                write!(out, ", after {count} clocks that fired")
            }
        }
    }
}

fn stuck_words(out: &mut fmt::Formatter, rule: u8, reason: Reason) -> fmt::Result {
    write!(
        out,
        "rule {rule} is stuck: {reason} (number {})",
        reason.number()
    )
}

fn reason(number: u8) -> Reason {
    match Reason::of(number) {
        Some(reason) => reason,
        None => unknown("stuck number", number),
    }
}

impl Design<'_> {
    /// A state with the start values; a user module's entry is 0, and nobody
    /// reads it.
    ///
    /// ```
    /// use cantaribol::Design;
    ///
    /// let design = Design::read(b"RG\x05\0\0\0UMSC\0")?;
    /// assert_eq!(design.start(), [5, 0]);
    /// # Ok::<(), cantaribol::Refusal>(())
    /// ```
    pub fn start(&self) -> Vec<i32> {
        let mut state = vec![0; self.counts().instances];
        if let Err(refusal) = self.set_start(&mut state) {
            unreachable!("a state of the right length: {refusal}");
        }
        state
    }

    /// Set the start values in a lent state; a user module's entry stays.
    pub fn set_start(&self, state: &mut [i32]) -> Result<(), Refusal> {
        match cantaribol_sys::start(self.file(), state) {
            0 => Ok(()),
            refused => Err(Refusal::unpacked(refused)),
        }
    }

    /// One clock on lent buffers: `fates` of 64 entries or more, `displays`
    /// of 4,096 or more. Entries past the schedule, and past the displays
    /// made, stay as they are.
    ///
    /// ```
    /// use cantaribol::{Design, Fate, Outcome, Refusal, DISPLAY_ROOM, FATE_ROOM};
    ///
    /// // One rule that displays 7, and one that is never available.
    /// let design = Design::read(b"UMRL\x08\0\x02\x01\x0B\x01\x07\0\0\0\
    ///                             RL\x08\0\x02\0\x0B\x01\x08\0\0\0SC\x02\0\x01")?;
    /// let mut state = design.start();
    /// let mut fates = [9; FATE_ROOM];
    /// let mut displays = [0; DISPLAY_ROOM];
    /// let outcome = design.clock(&mut state, &mut fates, &mut displays)?;
    /// assert_eq!(outcome, Outcome::Fired { displays: 1 });
    /// assert_eq!(displays[..outcome.displays()], [7]);
    /// assert_eq!(fates[..3], [Fate::Fired.number(), Fate::Unavailable.number(), 9]);
    ///
    /// let short = design.clock(&mut state, &mut fates[..63], &mut displays);
    /// assert_eq!(short, Err(Refusal::FateRoom));
    /// # Ok::<(), Refusal>(())
    /// ```
    pub fn clock(
        &self,
        state: &mut [i32],
        fates: &mut [u8],
        displays: &mut [i32],
    ) -> Result<Outcome, Refusal> {
        Outcome::unpacked(cantaribol_sys::clock(self.file(), state, fates, displays))
    }

    /// Up to `n` clocks on a lent state; fates and displays are not kept.
    ///
    /// ```
    /// use cantaribol::{Design, Ending};
    ///
    /// // Nothing is scheduled, so nothing ever fires.
    /// let design = Design::read(b"RG\x05\0\0\0SC\0")?;
    /// let mut state = design.start();
    /// assert_eq!(design.run(&mut state, 10)?, Ending::Quiet { count: 0 });
    /// assert_eq!(design.run(&mut state, 0)?, Ending::Limit { count: 0 });
    /// # Ok::<(), cantaribol::Refusal>(())
    /// ```
    pub fn run(&self, state: &mut [i32], n: u32) -> Result<Ending, Refusal> {
        Ending::unpacked(cantaribol_sys::run(self.file(), state, n))
    }
}
