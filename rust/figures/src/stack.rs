//! The stack that the deepest designs need: 64 instances, each calling down
//! from depth 16.

use std::hint::black_box;

use bench::instances;
use cantaribol_sys::{DISPLAY_ROOM, FATE_ROOM};
use generator::running::RUN_FAMILIES;

use crate::page::{grouped, short, Table};
use crate::paint::high_water;

const CLOCKS: u32 = 3;
/// What Linux gives a program to begin with.
const USUAL: f64 = (8 << 20) as f64;

/// A row: the library's function and the second program's.
type Row = (&'static str, fn(&[u8]), fn(&[u8]));

const ROWS: [Row; 4] = [
    ("read", main_read, second_read),
    ("check", main_check, second_check),
    ("clock", main_clock, second_clock),
    ("run", main_run, second_run),
];

fn main_read(file: &[u8]) {
    black_box(cantaribol_sys::read(file));
}

fn second_read(file: &[u8]) {
    drop(black_box(second::read(file)));
}

fn main_check(file: &[u8]) {
    black_box(cantaribol_sys::check(file));
}

fn second_check(file: &[u8]) {
    let checked = second::read(file).and_then(|design| second::check(&design));
    let _ = black_box(checked);
}

fn main_clock(file: &[u8]) {
    let mut state = vec![0; instances(file)];
    let (mut fates, mut displays) = (vec![0; FATE_ROOM], vec![0; DISPLAY_ROOM]);
    let answer = cantaribol_sys::clock(file, &mut state, &mut fates, &mut displays);
    black_box(answer);
}

fn second_clock(file: &[u8]) {
    let Ok(design) = second::read(file) else {
        return;
    };
    let mut state = vec![0; design.instances.len()];
    let (mut fates, mut displays) = (vec![0; FATE_ROOM], vec![0; DISPLAY_ROOM]);
    let answer = second::clock(&design, &mut state, &mut fates, &mut displays);
    let _ = black_box(answer);
}

fn main_run(file: &[u8]) {
    let mut state = vec![0; instances(file)];
    black_box(cantaribol_sys::run(file, &mut state, CLOCKS));
}

fn second_run(file: &[u8]) {
    let Ok(design) = second::read(file) else {
        return;
    };
    let mut state = vec![0; design.instances.len()];
    let _ = black_box(second::run(&design, &mut state, CLOCKS));
}

fn deepest() -> Result<Vec<Vec<u8>>, String> {
    let family = RUN_FAMILIES.iter().find(|(name, _)| *name == "deepest");
    family
        .map(|(_, files)| files())
        .ok_or("no such family".to_string())
}

/// The most that any of the files needs, above what an empty thread does.
fn needed(files: &[Vec<u8>], act: fn(&[u8])) -> Result<usize, String> {
    let water = |act: &mut (dyn FnMut() + Send)| high_water(act).map_err(|error| error.to_string());
    let empty = water(&mut || {})?;
    let all = water(&mut || files.iter().for_each(|file| act(file)))?;
    Ok(all - empty)
}

pub fn table() -> Result<String, String> {
    let files = deepest()?;
    let mut table = Table::new(&[
        "function",
        "library, bytes",
        "second, bytes",
        "library / second",
        "library / 8 MiB",
    ]);
    for (name, main, second) in ROWS {
        let (main, second) = (needed(&files, main)?, needed(&files, second)?);
        table.row(&[
            name.to_string(),
            grouped(main as i64),
            grouped(second as i64),
            short(main as f64 / second as f64),
            short(main as f64 / USUAL),
        ]);
    }
    Ok(table.text())
}

#[cfg(test)]
mod tests {
    use super::*;

    /// A program's first stack has room for every function.
    #[test]
    fn the_deepest_designs_stay_within_8_mib() {
        let files = deepest().expect("files");
        assert!(files.len() > 100);
        for (name, main, _) in ROWS {
            let bytes = needed(&files, main).expect("a thread");
            assert!((bytes as f64) < USUAL, "{name}: {bytes}");
            assert!(bytes > 1000, "{name}: {bytes}");
        }
    }
}
