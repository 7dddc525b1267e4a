//! `check`: does the design pass?

use std::ffi::{OsStr, OsString};
use std::io::{self, Write};

use cantaribol::Design;

use crate::fault::{Done, Fault, Verdict};
use crate::input::{self, Input};

/// How each file ends: one at fault does not keep the others from being
/// checked.
pub fn check_all(files: &[OsString], out: &mut dyn Write) -> Vec<Done> {
    let is_named = files.len() > 1;
    let ends = files.iter().map(|file| check_file(file, is_named, out));
    ends.collect()
}

fn check_file(file: &OsStr, is_named: bool, out: &mut dyn Write) -> Done {
    let input = &input::load(file)?;
    let mut line = Vec::new();
    let verdict = match input.design(&mut line)? {
        Ok(design) => check(input, &design, &mut line)?,
        Err(refused) => refused,
    };
    let name = is_named.then_some(input.name());
    match told(name, &line, out).map_err(Fault::from) {
        // What was found out stands, whether or not anybody reads it.
        Ok(()) | Err(Fault::ClosedPipe) => Ok(verdict),
        Err(fault) => Err(fault),
    }
}

fn told(name: Option<&str>, line: &[u8], out: &mut dyn Write) -> io::Result<()> {
    if let Some(name) = name {
        write!(out, "{name}: ")?;
    }
    out.write_all(line)
}

fn check(input: &Input, design: &Design, out: &mut dyn Write) -> Done {
    if let Err(failure) = design.check() {
        let (number, record) = (failure.reason.number(), failure.record);
        writeln!(out, "FAILED {number} {record}")?;
        return Ok(input.bad(format!("the check fails: {failure}"), Some(record)));
    }
    let counts = design.counts();
    writeln!(
        out,
        "PASSED {} instances, {} methods, {} rules, {} scheduled",
        counts.instances, counts.methods, counts.rules, counts.entries
    )?;
    Ok(Verdict::Fine)
}
