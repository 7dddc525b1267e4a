//! Clocks per second of both programs, a line for each design.
//!
//!     bench [ROUNDS] [MILLISECONDS]

use std::process::ExitCode;
use std::time::Duration;

use bench::{designs, measure, Measured};

/// Rounds of each design, and what a side is to take in one.
const ROUNDS: usize = 11;
const MILLISECONDS: u64 = 100;

fn line(measured: &Measured) -> String {
    let Measured {
        name,
        clocks,
        second,
        main,
        ratio,
        least,
        most,
        alone,
    } = measured;
    format!(
        "{name:<20} {clocks:>9} clocks  second {second:>8.3}  main {main:>8.3} M/s  \
         main/second {ratio:.3} ({least:.3} to {most:.3})  alone {alone:.2}"
    )
}

fn all() -> Result<(), String> {
    let mut arguments = std::env::args().skip(1);
    let mut number = |otherwise: u64| match arguments.next() {
        Some(text) => text.parse().map_err(|_| format!("no number: {text}")),
        None => Ok(otherwise),
    };
    let rounds = number(ROUNDS as u64)?.max(1) as usize;
    let wanted = Duration::from_millis(number(MILLISECONDS)?.max(1));
    println!("medians of {rounds} rounds; a ratio over 1 says that main is faster");
    println!(
        "alone: what a clock by itself takes, by prepare and tick, where one of a run takes 1"
    );
    for (name, file) in designs() {
        println!("{}", line(&measure(name, &file, rounds, wanted)?));
    }
    Ok(())
}

fn main() -> ExitCode {
    match all() {
        Ok(()) => ExitCode::SUCCESS,
        Err(text) => {
            eprintln!("bench: {text}");
            ExitCode::FAILURE
        }
    }
}
