//! `list`: what document 01's lister prints.

use std::io::{self, Write};

use cantaribol::{Board, Design, Ending, Outcome};

use crate::fault::{Done, Fault, Verdict};
use crate::input::Input;
use crate::interrupt;

/// How a run ended, or how many clocks had fired when an interrupt came.
#[derive(Clone, Copy, Debug, PartialEq, Eq)]
pub enum End {
    Of(Ending),
    Interrupted { count: u32 },
}

pub fn list(input: &Input, design: &Design, clocks: u32, out: &mut dyn Write) -> Done {
    interrupt::watch();
    let mut board = design.board();
    let end = clocked(&mut board, clocks, |clock, board| {
        clock_line(clock, board, out)
    })?;
    last_line(&board, end, out)?;
    verdict(input, end)
}

/// Up to `clocks` clocks; each is told before it is judged.
pub fn clocked<E>(
    board: &mut Board,
    clocks: u32,
    mut tell: impl FnMut(u32, &Board) -> Result<(), E>,
) -> Result<End, E> {
    let mut count = 0;
    for clock in 0..clocks {
        if interrupt::came() {
            return Ok(End::Interrupted { count });
        }
        let outcome = board.clock();
        tell(clock, board)?;
        match outcome {
            Outcome::Fired { .. } => count += 1,
            Outcome::Quiet => return Ok(End::Of(Ending::Quiet { count })),
            Outcome::Stuck { rule, reason, .. } => {
                return Ok(End::Of(Ending::Stuck {
                    count,
                    rule,
                    reason,
                }))
            }
        }
    }
    Ok(End::Of(Ending::Limit { count }))
}

/// A run that got stuck is not what was wanted, and of an interrupted one
/// nobody knows.
pub fn verdict(input: &Input, end: End) -> Done {
    match end {
        End::Of(ending @ Ending::Stuck { .. }) => Ok(input.bad(ending.to_string(), None)),
        End::Of(Ending::Limit { .. } | Ending::Quiet { .. }) => Ok(Verdict::Fine),
        End::Interrupted { .. } => Err(Fault::Interrupted),
    }
}

fn clock_line(clock: u32, board: &Board, out: &mut dyn Write) -> io::Result<()> {
    let fates = board.fates();
    let letters: String = match fates.is_empty() {
        true => ".".to_string(),
        false => fates.iter().map(|(_, fate)| fate.letter()).collect(),
    };
    write!(out, "{clock} {letters}")?;
    for display in board.displays() {
        write!(out, " {display}")?;
    }
    writeln!(out)
}

pub fn last_line(board: &Board, end: End, out: &mut dyn Write) -> io::Result<()> {
    match end {
        End::Of(Ending::Limit { count }) => write!(out, "LIMIT {count}")?,
        End::Of(Ending::Quiet { count }) => write!(out, "QUIET {count}")?,
        End::Of(Ending::Stuck {
            count,
            rule,
            reason,
        }) => write!(out, "STUCK {count} {rule} {}", reason.number())?,
        End::Interrupted { count } => write!(out, "INTERRUPTED {count}")?,
    }
    let registers = board.design().registers();
    for (instance, value) in board.state().iter().enumerate() {
        match registers.contains(&instance) {
            true => write!(out, " {value}")?,
            false => write!(out, " -")?,
        }
    }
    writeln!(out)
}
