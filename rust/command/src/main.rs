//! The command: check, convert, list, run, show and trace design files.
//!
//! Exit status: 0 done; 1 the design is refused, fails the check or gets
//! stuck; 2 the command line or a file is at fault; 130 interrupted.

mod arguments;
mod assembly;
mod checking;
mod converting;
mod fault;
mod help;
mod hex;
mod input;
mod interrupt;
mod listing;
mod output;
mod running;
mod showing;
mod text;
mod tracing;
mod tree;
mod vcd;

use std::env;
use std::ffi::OsStr;
use std::io::{self, BufWriter, Write};
use std::process::ExitCode;

use arguments::{Arguments, Command};
use fault::{Done, Fault, Verdict};

const VERSION: &str = concat!("cantaribol ", env!("CARGO_PKG_VERSION"), "\n");

fn main() -> ExitCode {
    let mut out = BufWriter::new(io::stdout().lock());
    let mut ends = answer(&mut out);
    let flushed = out.flush().map_err(Fault::from);
    // An output that failed before fails here again.
    if let (Err(fault), true) = (flushed, ends.iter().all(Result::is_ok)) {
        ends.push(Err(fault));
    }
    let worst = ends.into_iter().map(ended).max();
    ExitCode::from(worst.unwrap_or(0))
}

/// Says how the work on a file ended; its exit status.
fn ended(end: Done) -> u8 {
    let (status, message) = match end {
        Ok(Verdict::Fine) => return 0,
        // Whoever read the output has had enough: nothing is wrong.
        Err(Fault::ClosedPipe) => return 0,
        // As shells say it: 128, and the number of the signal.
        Err(Fault::Interrupted) => return 130,
        Ok(Verdict::Bad(message)) => (1, message),
        Err(Fault::Usage(message)) => (2, format!("{message}\ntry: cantaribol --help")),
        Err(Fault::Io(message)) => (2, message),
    };
    // A closed standard error is no reason to crash.
    let _ = writeln!(io::stderr(), "cantaribol: {message}");
    status
}

/// How the work on each file ended.
fn answer(out: &mut dyn Write) -> Vec<Done> {
    match Arguments::parse(env::args_os().skip(1)) {
        Err(fault) => vec![Err(fault)],
        Ok(Arguments::Help(about)) => vec![say(help::help(about), out)],
        Ok(Arguments::Version) => vec![say(VERSION, out)],
        Ok(Arguments::Check(files)) => checking::check_all(&files, out),
        Ok(Arguments::Work(command, file)) => vec![work(command, &file, out)],
    }
}

fn say(words: &str, out: &mut dyn Write) -> Done {
    out.write_all(words.as_bytes())?;
    Ok(Verdict::Fine)
}

fn work(command: Command, file: &OsStr, out: &mut dyn Write) -> Done {
    let input = &input::load(file)?;
    let design = &match input.design(out)? {
        Ok(design) => design,
        Err(refused) => return Ok(refused),
    };
    match command {
        Command::Convert { form, out: path } => {
            converting::convert(input, design, form, &path, out)
        }
        Command::List { clocks } => listing::list(input, design, clocks, out),
        Command::Run { clocks } => running::run(input, design, clocks, out),
        Command::Show => showing::show(design, out),
        Command::Trace { clocks, vcd } => tracing::trace(input, design, clocks, &vcd, out),
    }
}
