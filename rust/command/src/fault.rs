//! How a command can end.

use std::fmt::Display;
use std::io;

/// What a command says of the design.
#[derive(Debug, PartialEq, Eq)]
pub enum Verdict {
    Fine,
    /// Refused, failed or stuck, in words.
    Bad(String),
}

/// Why a command could not say anything.
#[derive(Debug, PartialEq, Eq)]
pub enum Fault {
    Usage(String),
    Io(String),
    ClosedPipe,
    /// Whoever started it did not want to know.
    Interrupted,
}

pub type Done<T = Verdict> = Result<T, Fault>;

impl Fault {
    /// What is written to may be a pipe, also where it has a name.
    pub fn of_writing(name: impl Display, error: io::Error) -> Self {
        match error.kind() {
            io::ErrorKind::BrokenPipe => Fault::ClosedPipe,
            _ => Fault::Io(format!("{name}: {error}")),
        }
    }
}

impl From<io::Error> for Fault {
    fn from(error: io::Error) -> Self {
        Fault::of_writing("standard output", error)
    }
}
