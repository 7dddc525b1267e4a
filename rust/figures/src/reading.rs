//! Reading and checking, in bytes of file.

use std::hint::black_box;

use generator::running::known::most_displays;

use crate::page::{grouped, short, Table};
use crate::rounds::{Costs, Done, Pace, Work};

fn all(times: u64, answer: impl Fn() -> u64) -> Done {
    for _ in 0..times {
        match black_box(answer()) {
            0 => {}
            other => return Err(format!("reading or checking: {other}")),
        }
    }
    Ok(())
}

fn second_read(file: &[u8]) -> u64 {
    second::read(file).map_or(1, |design| black_box(design).schedule.is_empty().into())
}

/// The library's check reads the file too, so the second's does here.
fn second_check(file: &[u8]) -> u64 {
    let checked = second::read(file).and_then(|design| second::check(&design));
    checked.is_err().into()
}

/// Four works for a file: reading, then checking, each by the library first.
fn works(file: &[u8]) -> [Work<'_>; 4] {
    [
        Work::new(move |times| all(times, || cantaribol_sys::read(black_box(file)))),
        Work::new(move |times| all(times, || second_read(black_box(file)))),
        Work::new(move |times| all(times, || cantaribol_sys::check(black_box(file)))),
        Work::new(move |times| all(times, || second_check(black_box(file)))),
    ]
}

pub fn table(pace: Pace) -> Result<String, String> {
    let mut designs = bench::designs();
    designs.push(("64 rules, 4,096 displays", most_displays().file()));
    let mut table = Table::new(&[
        "design",
        "bytes",
        "read MB/s",
        "second",
        "library / second",
        "check MB/s",
        "second",
        "library / second",
    ]);
    for (name, file) in &designs {
        let costs = Costs::of(works(file).into(), pace)?;
        let speed = |work: usize| short(file.len() as f64 / costs.cost(work) / 1e6);
        table.row(&[
            name.to_string(),
            grouped(file.len() as i64),
            speed(0),
            speed(1),
            short(costs.ratio(1, 0)),
            speed(2),
            speed(3),
            short(costs.ratio(3, 2)),
        ]);
    }
    Ok(table.text())
}
