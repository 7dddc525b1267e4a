//! How a clock's cost grows: with rules, with calls, with the file's length,
//! and with the number of clocks.

use bench::instances;
use cantaribol_sys::{DISPLAY_ROOM, FATE_ROOM};
use generator::running::known::gcd;

use crate::designs::{self, Idle};
use crate::page::{grouped, short, Table};
use crate::rounds::{Costs, Done, Pace, Work};

/// A run's clock may cost this many times the shortest file's in a long one;
/// more is no noise.
const GROWN: f64 = 1.5;

/// A run of the library from the start values; a unit is a clock.
fn main_run(file: &[u8]) -> Work<'_> {
    let count = instances(file);
    Work::new(move |n| bench::by_main(file, count, n as u32).map(|_| ()))
}

fn second_run(file: &[u8]) -> Work<'_> {
    Work::new(move |n| bench::by_second(file, n as u32).map(|_| ()))
}

const NUMBERS: [u8; 7] = [1, 2, 4, 8, 16, 32, 64];

/// A design for each number of rules or calls: what a clock costs, beside the
/// first row's and beside the second program's.
fn by_number(noun: &str, design: fn(u8) -> Vec<u8>, pace: Pace) -> Result<String, String> {
    let files = NUMBERS.map(design);
    let mut works = Vec::new();
    for file in &files {
        works.extend([main_run(file), second_run(file)]);
    }
    let costs = Costs::of(works, pace)?;
    let mut table = Table::new(&[
        &format!("{noun}s"),
        "ns a clock",
        &format!("times one {noun}'s"),
        &format!("the same, for each {noun}"),
        "library / second",
    ]);
    for (at, number) in NUMBERS.iter().enumerate() {
        let grown = costs.ratio(2 * at, 0);
        table.row(&[
            number.to_string(),
            short(costs.cost(2 * at) * 1e9),
            short(grown),
            short(grown / f64::from(*number)),
            short(costs.ratio(2 * at + 1, 2 * at)),
        ]);
    }
    Ok(table.text())
}

pub fn rules(pace: Pace) -> Result<String, String> {
    by_number("rule", designs::rules, pace)
}

pub fn waiting(pace: Pace) -> Result<String, String> {
    by_number("rule", designs::waiting, pace)
}

pub fn calls(pace: Pace) -> Result<String, String> {
    by_number("call", designs::calls, pace)
}

/// Single clocks: each call reads the file; a unit is a call.
fn single_clocks(file: &[u8]) -> Work<'_> {
    let mut state = vec![0; instances(file)];
    let (mut fates, mut displays) = ([0; FATE_ROOM], [0; DISPLAY_ROOM]);
    Work::new(move |times| {
        for _ in 0..times {
            let answer = cantaribol_sys::clock(file, &mut state, &mut fates, &mut displays);
            if answer != 256 {
                return Err(format!("clock: {answer}"));
            }
        }
        Ok(())
    })
}

/// Rules that are not scheduled make the file longer. Fails where a run's
/// clock costs more for it.
pub fn length(pace: Pace) -> Result<String, String> {
    let lengths = [33, 1_024, 4_096, 16_384, 32_768];
    let appended = lengths.map(|length| designs::longer(length, Idle::Appended));
    let before = lengths.map(|length| designs::longer(length, Idle::Before));
    let mut works = Vec::new();
    for (appended, before) in appended.iter().zip(&before) {
        works.extend([
            main_run(appended),
            main_run(before),
            single_clocks(appended),
        ]);
    }
    let costs = Costs::of(works, pace)?;
    let mut table = Table::new(&[
        "bytes",
        "run: ns a clock",
        "times P10's",
        "idle rules first: times P10's",
        "single clock: ns a call",
        "times P10's",
        "single / run",
    ]);
    for (at, length) in lengths.iter().enumerate() {
        let [run, first, single] = [3 * at, 3 * at + 1, 3 * at + 2];
        steady(*length, costs.ratio(run, 0).max(costs.ratio(first, 1)))?;
        table.row(&[
            grouped(*length as i64),
            short(costs.cost(run) * 1e9),
            short(costs.ratio(run, 0)),
            short(costs.ratio(first, 1)),
            short(costs.cost(single) * 1e9),
            short(costs.ratio(single, 2)),
            short(costs.ratio(single, run)),
        ]);
    }
    Ok(table.text())
}

fn steady(length: usize, ratio: f64) -> Done {
    match ratio <= GROWN {
        true => Ok(()),
        false => Err(format!(
            "a run's clock costs {ratio:.2} times as much in a file of {length} bytes"
        )),
    }
}

/// Whole calls of a run: what reading costs is spread over the clocks.
pub fn clocks(pace: Pace) -> Result<String, String> {
    let file = gcd(24, 16, 0).file();
    let count = instances(&file);
    let numbers: [u32; 6] = [1, 10, 100, 1_000, 10_000, 100_000];
    let run = |n: u32| {
        let file = &file;
        Work::new(move |times| {
            (0..times).try_for_each(|_| bench::by_main(file, count, n).map(|_| ()))
        })
    };
    let costs = Costs::of(numbers.iter().map(|n| run(*n)).collect(), pace)?;
    let last = numbers.len() - 1;
    let mut table = Table::new(&["clocks", "ns a clock", "times the longest run's"]);
    for (at, n) in numbers.iter().enumerate() {
        let share = f64::from(*n) / f64::from(numbers[last]);
        table.row(&[
            grouped(i64::from(*n)),
            short(costs.cost(at) / f64::from(*n) * 1e9),
            short(costs.ratio(at, last) / share),
        ]);
    }
    Ok(table.text())
}

#[cfg(test)]
mod tests {
    use super::*;

    #[test]
    fn growth_is_told() {
        assert_eq!(steady(33, 1.0), Ok(()));
        assert_eq!(steady(33, 1.5), Ok(()));
        assert!(steady(33, 1.6).is_err());
    }
}
