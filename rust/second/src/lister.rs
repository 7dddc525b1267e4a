//! The lister: a clock count and a design in, a line for each clock out.

use std::io::{self, Write};

use crate::clock::{start, Fate, Runner};
use crate::design::{Design, Instance, Refusal};
use crate::reader::read;
use crate::run::{Ending, Run};

/// The clock count is the input's first four bytes; places are counted in
/// the design after it.
pub fn lister(input: &[u8], out: &mut impl Write) -> io::Result<()> {
    let Some((count, file)) = input.split_first_chunk::<4>() else {
        return refused(
            Refusal {
                number: 2,
                place: 0,
            },
            out,
        );
    };
    match read(file) {
        Ok(design) => list(&design, u32::from_le_bytes(*count), out),
        Err(refusal) => refused(refusal, out),
    }
}

fn refused(refusal: Refusal, out: &mut impl Write) -> io::Result<()> {
    writeln!(out, "REFUSED {} {}", refusal.number, refusal.place)
}

fn list(design: &Design, n: u32, out: &mut impl Write) -> io::Result<()> {
    let mut state = vec![0; design.instances.len()];
    if let Err(refusal) = start(design, &mut state) {
        return refused(refusal, out);
    }
    let tell = |clock: u32, runner: &Runner| clock_line(clock, runner, out);
    let run = Runner::new(design).run(&mut state, n, tell)?;
    last_line(design, &state, run, out)
}

fn clock_line(clock: u32, runner: &Runner, out: &mut impl Write) -> io::Result<()> {
    write!(out, "{clock} ")?;
    if runner.fates.is_empty() {
        out.write_all(b".")?;
    }
    for fate in &runner.fates {
        out.write_all(&[letter(*fate)])?;
    }
    for display in &runner.displays {
        write!(out, " {display}")?;
    }
    out.write_all(b"\n")
}

fn letter(fate: Fate) -> u8 {
    match fate {
        Fate::Fired => b'F',
        Fate::Unavailable => b'U',
        Fate::Inside => b'A',
        Fate::Earlier => b'E',
        Fate::Hardware => b'H',
        Fate::Stuck => b'S',
        Fate::NotReached => b'-',
    }
}

fn last_line(design: &Design, state: &[i32], run: Run, out: &mut impl Write) -> io::Result<()> {
    match run.ending {
        Ending::Limit => write!(out, "LIMIT {}", run.count)?,
        Ending::Quiet => write!(out, "QUIET {}", run.count)?,
        Ending::Stuck { rule, reason } => {
            write!(out, "STUCK {} {rule} {}", run.count, reason.number())?;
        }
    }
    for (value, instance) in state.iter().zip(&design.instances) {
        match instance {
            Instance::Register { .. } => write!(out, " {value}")?,
            Instance::User { .. } => out.write_all(b" -")?,
        }
    }
    out.write_all(b"\n")
}
