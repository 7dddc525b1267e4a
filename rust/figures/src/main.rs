//! The page of figures.
//!
//!     figures PATH [ROUNDS] [MILLISECONDS]
//!
//! Writes the page to PATH. Where a run's clock costs more in a longer file,
//! or two programs end differently, nothing is written and the status is 1.

mod designs;
mod gate;
mod growth;
mod page;
mod paint;
mod reading;
mod rounds;
mod stack;
mod verilog;

use std::fs;
use std::path::Path;
use std::process::ExitCode;
use std::time::Duration;

use page::{grouped, short, Table};
use rounds::Pace;

const ROUNDS: u64 = 11;
const MILLISECONDS: u64 = 30;

const RUN: &str = "\
Clocks per second, in millions. A run reads the file, sets the start values and does the clocks; the second program builds trees
first and walks them, the library walks the bytes. In brackets the least and the most of the rounds.";

const VERILOG: &str = "\
The same designs written by hand in Verilog (`rust/figures/verilog`), compiled by `iverilog` and run by `vvp`, whose start as a
process is part of its time. Both end with the same registers. The Verilog says which register changes; it has no rules, so nobody
asks it which of them was held back and why.";

const NO_VERILOG: &str = "\
Left out: `iverilog` is not installed here. Where it is, this command compares the library with the Verilog of GCD and PipelineFIFO
in `rust/figures/verilog`, in end registers and in speed.";

const RULES: &str = "\
All rules fire in every clock; each reads a register and writes it, counted up, by a port that no other rule uses. The calls of a
rule are tried against those of all earlier fired ones, which is why many rules cost more each.";

const WAITING: &str = "\
The last rule fires, and the others are unavailable: their guards compare a register that nobody writes.";

const CALLS: &str = "\
One rule that reads one register so many times. Its calls are tried against each other.";

const LENGTH: &str = "\
P10 with rules that are not scheduled, after its own rule or before it. A run reads the file once, so its clock costs the same
however long the file is; this command fails where it does not. `cantaribol_clock`, one clock, reads the file in every call.";

const CLOCKS: &str = "\
GCD, which begins again. A call of `cantaribol_start` and one of `cantaribol_run`, which read the file each.";

const READING: &str = "\
Bytes of the file, in millions a second. The check reads the file first, in both programs.";

const STACK: &str = "\
The most that any of the deepest designs needs: 64 instances, each calling down from depth 16. Measured on a painted stack, above
what an empty thread needs. The second program's rows include its reading, which builds the trees.";

const GATE: &str = "\
Seconds of each crate's proof and of its must-fail edits, as a gate that tells them left them in `target`. Two of these run at a time.";

const NO_GATE: &str = "\
Left out: `target/log` does not hold the time of every crate's proof, and `rt ci` tells none.";

fn against_second(pace: Pace) -> Result<String, String> {
    let mut table = Table::new(&["design", "clocks", "library", "second", "library / second"]);
    for (name, file) in bench::designs() {
        let measured = bench::measure(name, &file, pace.rounds, pace.wanted)?;
        let (least, most) = (short(measured.least), short(measured.most));
        table.row(&[
            name.to_string(),
            grouped(i64::from(measured.clocks)),
            short(measured.main),
            short(measured.second),
            format!("{} ({least} to {most})", short(measured.ratio)),
        ]);
    }
    Ok(table.text())
}

/// How busy the machine was, if it tells.
fn load() -> String {
    let text = fs::read_to_string("/proc/loadavg").unwrap_or_default();
    match text.split(' ').next() {
        Some(first) if !first.is_empty() => format!(", with a load of {first} at the beginning"),
        _ => String::new(),
    }
}

fn head(pace: Pace) -> String {
    let cores = std::thread::available_parallelism().map_or(1, |count| count.get());
    let (system, processor) = (std::env::consts::OS, std::env::consts::ARCH);
    let (rounds, wanted) = (pace.rounds, pace.wanted.as_millis());
    format!(
        "# Figures\n\n\
         Made by one command, in `rust/`, after `rt lib` in `crates/host`:\n\n    \
         cargo run --release -p figures -- ../docs/FIGURES.md\n\n\
         Machine: {processor}, {system}, {cores} cores{load}. Each time is the median of {rounds} rounds.\n\
         In a round all that a ratio compares has its turn, one right after the other, sized beforehand to some {wanted} ms, and ratios are taken\n\
         within the round, so that a slow moment meets both sides; the median of these is given, not the ratio of the medians. The\n\
         ratios are what to look at; the times are this machine's, at that moment. *Library* is the proved one, by its C functions;\n\
         *second* is the second program (`rust/second`). A ratio library / second over 1 says that the library is faster; of stack,\n\
         less is better.\n",
        load = load(),
    )
}

fn all(pace: Pace) -> Result<String, String> {
    let top = Path::new(env!("CARGO_MANIFEST_DIR")).join("../..");
    let mut page = head(pace);
    let mut section = |title: &str, words: &str, table: &str| {
        eprintln!("{title}");
        page += &format!("\n## {title}\n\n{words}\n");
        if !table.is_empty() {
            page += &format!("\n{table}");
        }
    };
    section("A run", RUN, &against_second(pace)?);
    match verilog::table(pace)? {
        Some(table) => section("Against Verilog", VERILOG, &table),
        None => section("Against Verilog", NO_VERILOG, ""),
    }
    section("More rules", RULES, &growth::rules(pace)?);
    section("More rules that wait", WAITING, &growth::waiting(pace)?);
    section("More calls in a rule", CALLS, &growth::calls(pace)?);
    section("A longer file", LENGTH, &growth::length(pace)?);
    section("More clocks", CLOCKS, &growth::clocks(pace)?);
    section("Reading and checking", READING, &reading::table(pace)?);
    section("Stack", STACK, &stack::table()?);
    match gate::table(&top) {
        Some(table) => section("The gate", GATE, &table),
        None => section("The gate", NO_GATE, ""),
    }
    Ok(page)
}

fn made() -> Result<(), String> {
    const USAGE: &str = "figures PATH [ROUNDS] [MILLISECONDS]";
    let mut arguments = std::env::args().skip(1);
    let path = arguments.next().ok_or(USAGE)?;
    let mut number = |otherwise: u64| match arguments.next() {
        Some(text) => text.parse().map_err(|_| USAGE),
        None => Ok(otherwise),
    };
    let pace = Pace {
        rounds: number(ROUNDS)?.max(1) as usize,
        wanted: Duration::from_millis(number(MILLISECONDS)?.max(1)),
    };
    fs::write(&path, all(pace)?).map_err(|error| format!("{path}: {error}"))
}

fn main() -> ExitCode {
    match made() {
        Ok(()) => ExitCode::SUCCESS,
        Err(text) => {
            eprintln!("figures: {text}");
            ExitCode::FAILURE
        }
    }
}
