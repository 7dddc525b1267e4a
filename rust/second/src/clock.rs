//! One clock: the scheduled rules in order, each with its fate.

use crate::conflict;
use crate::design::{Design, Instance, Refusal};
use crate::evaluate::{evaluate, Call, Log};
use crate::value::{Halt, Reason};

pub const FATE_ROOM: usize = 64;
pub const DISPLAY_ROOM: usize = 4096;

#[derive(Clone, Copy, Debug, PartialEq, Eq)]
#[repr(u8)]
pub enum Fate {
    Fired = 0,
    Unavailable = 1,
    Inside = 2,
    Earlier = 3,
    Hardware = 4,
    Stuck = 5,
    NotReached = 6,
}

/// What one clock answers; `displays` is how many it made.
#[derive(Clone, Copy, Debug, PartialEq, Eq)]
pub enum Clocked {
    Done {
        fired: bool,
        displays: usize,
    },
    Stuck {
        rule: u8,
        reason: Reason,
        displays: usize,
    },
}

/// One clock on lent buffers. A refusal changes none of them.
pub fn clock(
    design: &Design,
    state: &mut [i32],
    fates: &mut [u8],
    displays: &mut [i32],
) -> Result<Clocked, Refusal> {
    test_state(design, state)?;
    if fates.len() < FATE_ROOM {
        return refuse(11);
    }
    if displays.len() < DISPLAY_ROOM {
        return refuse(12);
    }
    let mut runner = Runner::new(design);
    let answer = runner.clock(state);
    for (entry, fate) in fates.iter_mut().zip(&runner.fates) {
        *entry = *fate as u8;
    }
    let made = &runner.displays;
    displays[..made.len()].copy_from_slice(made);
    Ok(answer)
}

/// Set the start values; a user instance's entry stays.
pub fn start(design: &Design, state: &mut [i32]) -> Result<(), Refusal> {
    test_state(design, state)?;
    for (entry, instance) in state.iter_mut().zip(&design.instances) {
        if let Instance::Register { start, .. } = instance {
            *entry = *start;
        }
    }
    Ok(())
}

pub(crate) fn test_state(design: &Design, state: &[i32]) -> Result<(), Refusal> {
    match state.len() == design.instances.len() {
        true => Ok(()),
        false => refuse(10),
    }
}

fn refuse<T>(number: u8) -> Result<T, Refusal> {
    Err(Refusal { number, place: 0 })
}

/// A design with the room that its clocks need, made once for many clocks.
pub struct Runner<'a> {
    pub(crate) design: &'a Design,
    log: Log,
    /// The calls of the rules that fired in this clock.
    earlier: Vec<Call>,
    /// The state at the clock's start.
    before: Vec<i32>,
    /// Of the latest clock, by schedule entry.
    pub fates: Vec<Fate>,
    /// Made by the latest clock.
    pub displays: Vec<i32>,
}

impl<'a> Runner<'a> {
    pub fn new(design: &'a Design) -> Self {
        Runner {
            design,
            log: Log::default(),
            earlier: Vec::new(),
            before: vec![0; design.instances.len()],
            fates: vec![Fate::NotReached; design.schedule.len()],
            displays: Vec::new(),
        }
    }

    /// One clock from a state of the right length.
    pub fn clock(&mut self, state: &mut [i32]) -> Clocked {
        let design = self.design;
        self.before.copy_from_slice(state);
        self.fates.fill(Fate::NotReached);
        self.displays.clear();
        self.earlier.clear();
        let mut fired = false;
        for (entry, rule) in design.schedule.iter().enumerate() {
            match self.turn(*rule, state) {
                Ok(fate) => {
                    self.fates[entry] = fate;
                    fired |= fate == Fate::Fired;
                }
                Err(reason) => {
                    self.fates[entry] = Fate::Stuck;
                    state.copy_from_slice(&self.before);
                    return self.stuck(*rule, reason);
                }
            }
        }
        Clocked::Done {
            fired,
            displays: self.displays.len(),
        }
    }

    fn stuck(&self, rule: u8, reason: Reason) -> Clocked {
        Clocked::Stuck {
            rule,
            reason,
            displays: self.displays.len(),
        }
    }

    /// One rule's turn: its fate, or why it is stuck.
    fn turn(&mut self, rule: u8, state: &mut [i32]) -> Result<Fate, Reason> {
        let rule = &self.design.rules[usize::from(rule)];
        match evaluate(self.design, rule, state, &mut self.log) {
            Ok(()) => {}
            Err(Halt::Unavailable) => return Ok(Fate::Unavailable),
            Err(Halt::Stuck(reason)) => return Err(reason),
        }
        let fate = conflict::fate(&self.earlier, &self.log.calls);
        if fate == Fate::Fired {
            self.fire(state);
        }
        Ok(fate)
    }

    /// Do what the rule collected, before the next rule's turn.
    fn fire(&mut self, state: &mut [i32]) {
        for (instance, value) in &self.log.writes {
            state[usize::from(*instance)] = *value;
        }
        self.displays.extend(&self.log.displays);
        self.earlier.extend(&self.log.calls);
    }
}
