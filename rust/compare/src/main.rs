//! The main program against the second one, on many files.
//!
//!     compare read|run|check --seed S --count N
//!     compare lister --seed S --count N --program PATH
//!     compare read|run|check --seed S --dump INDEX [--family NAME]
//!
//! Each compares N random files and all systematic families, and exits with
//! 0 only if both programs agree on all and the files were varied enough.
//! With `--dump` one file is printed.

mod arguments;
mod checking;
mod found;
mod judge;
mod lent;
mod listing;
mod packed;
mod reading;
mod run_tally;
mod running;
mod shown;
mod sources;
mod stage;
mod tally;
mod trial;

use std::process::ExitCode;

use arguments::{Arguments, Command};
use cantaribol_sys::Main;

fn main() -> ExitCode {
    let done = Arguments::parse(std::env::args().skip(1)).and_then(|words| answer(&words));
    match done {
        Ok(line) => {
            println!("{line}");
            ExitCode::SUCCESS
        }
        Err(line) => {
            eprintln!("{line}");
            ExitCode::FAILURE
        }
    }
}

fn answer(arguments: &Arguments) -> Result<String, String> {
    match (arguments.command, arguments.dump) {
        (Command::Lister, _) => listing::compare(arguments),
        (Command::Read, Some(index)) => reading::dump(arguments, index),
        (Command::Run | Command::Check, Some(index)) => sources::dump(arguments, index),
        (Command::Read, None) => reading::compare(arguments, &Main),
        (Command::Run, None) => running::compare(arguments, &Main),
        (Command::Check, None) => checking::compare(arguments, &Main),
    }
}
