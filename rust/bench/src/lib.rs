//! Clocks per second: the main program's run against the second one's.
//!
//! Both sides are in one process. In each round they run the same design for
//! the same number of clocks, one right after the other and in turn first, so
//! that a slow moment of the machine meets both. A side reads the file, sets
//! the start values and runs, as a caller of the main program would.

use std::time::{Duration, Instant};

use cantaribol_sys::{answer, DISPLAY_ROOM, FATE_ROOM, LOG_ROOM, PLAN_SIZE};
use generator::running::known::{crowd, fifo, gcd, tower};
use generator::samples::p10;
use second::{Ending, Run};

/// The designs that speed is measured on, by name.
pub fn designs() -> Vec<(&'static str, Vec<u8>)> {
    vec![
        ("P10", p10().file()),
        // It begins again when it is done, as else it would be quiet.
        ("GCD", gcd(24, 16, 0).file()),
        ("PipelineFIFO", fifo(1, 0, &[1, 0]).file()),
        ("64 rules, conflicts", crowd().file()),
        ("62 calls deep", tower().file()),
    ]
}

/// What a side ended with: the clocks in which a rule fired, and the state.
#[derive(Debug, PartialEq, Eq)]
pub struct Ended {
    pub count: u64,
    pub state: Vec<i32>,
}

pub fn by_second(file: &[u8], n: u32) -> Result<Ended, String> {
    let wrong = |refusal| format!("second: {refusal:?}");
    let design = second::read(file).map_err(wrong)?;
    let mut state = vec![0; design.instances.len()];
    second::start(&design, &mut state).map_err(wrong)?;
    match second::run(&design, &mut state, n).map_err(wrong)? {
        Run {
            ending: Ending::Limit,
            count,
        } => Ok(Ended {
            count: u64::from(count),
            state,
        }),
        other => Err(format!("second: {other:?}")),
    }
}

/// How many entries a design's state has.
pub fn instances(file: &[u8]) -> usize {
    answer::counts(cantaribol_sys::counts(file))[0]
}

pub fn by_main(file: &[u8], instances: usize, n: u32) -> Result<Ended, String> {
    let mut state = vec![0; instances];
    let started = cantaribol_sys::start(file, &mut state);
    let answer = cantaribol_sys::run(file, &mut state, n);
    match (started, answer::number(answer)) {
        (0, 0) => Ok(Ended {
            count: answer::count(answer),
            state,
        }),
        _ => Err(format!("main: start {started}, run {answer}")),
    }
}

/// The same clocks one by one, by a plan that is made once.
pub fn by_ticks(file: &[u8], instances: usize, n: u32) -> Result<Ended, String> {
    let (mut plan, mut log) = (vec![0; PLAN_SIZE], vec![0; LOG_ROOM]);
    let (mut fates, mut displays) = ([0; FATE_ROOM], vec![0; DISPLAY_ROOM]);
    let mut state = vec![0; instances];
    let prepared = cantaribol_sys::prepare(file, &mut plan);
    let started = cantaribol_sys::start(file, &mut state);
    if (prepared, started) != (0, 0) {
        return Err(format!("ticks: prepare {prepared}, start {started}"));
    }
    for clock in 0..n {
        let buffers = (&mut fates, &mut displays, &mut log);
        let answer = cantaribol_sys::tick(file, &plan, &mut state, buffers.0, buffers.1, buffers.2);
        if answer & 0xFFFF != 256 {
            return Err(format!("ticks: {answer} in clock {clock}"));
        }
    }
    let count = u64::from(n);
    Ok(Ended { count, state })
}

pub fn timed<T>(work: impl FnOnce() -> T) -> (T, Duration) {
    let begin = Instant::now();
    let done = work();
    (done, begin.elapsed())
}

/// The least time of three tries: a single one may meet a slow moment.
pub fn least_time(mut work: impl FnMut() -> Result<(), String>) -> Result<Duration, String> {
    let mut least = Duration::MAX;
    for _ in 0..3 {
        let (done, took) = timed(&mut work);
        done?;
        least = least.min(took);
    }
    Ok(least)
}

/// Clocks for which the second program takes about so long.
fn clock_count(file: &[u8], wanted: Duration) -> Result<u32, String> {
    let mut n = 1_000;
    loop {
        let took = least_time(|| by_second(file, n).map(|_| ()))?;
        if took * 10 >= wanted {
            let scale = wanted.as_secs_f64() / took.as_secs_f64();
            return Ok((f64::from(n) * scale) as u32);
        }
        n *= 4;
    }
}

/// One round: seconds of the second program and of the main one.
fn round(file: &[u8], n: u32, main_first: bool) -> Result<(f64, f64), String> {
    let instances = instances(file);
    let second = || timed(|| by_second(file, n));
    let main = || timed(|| by_main(file, instances, n));
    let ((second, second_took), (main, main_took)) = match main_first {
        true => {
            let main = main();
            (second(), main)
        }
        false => (second(), main()),
    };
    let (second, main) = (second?, main?);
    if second != main {
        return Err(format!("different ends: second {second:?}, main {main:?}"));
    }
    Ok((second_took.as_secs_f64(), main_took.as_secs_f64()))
}

/// One round: how often a run's time its clocks take one by one.
fn alone(file: &[u8], n: u32) -> Result<f64, String> {
    let instances = instances(file);
    let (run, run_took) = timed(|| by_main(file, instances, n));
    let (ticks, ticks_took) = timed(|| by_ticks(file, instances, n));
    let (run, ticks) = (run?, ticks?);
    if run != ticks {
        return Err(format!("different ends: run {run:?}, ticks {ticks:?}"));
    }
    Ok(ticks_took.as_secs_f64() / run_took.as_secs_f64())
}

pub fn median(mut values: Vec<f64>) -> f64 {
    values.sort_by(f64::total_cmp);
    values[values.len() / 2]
}

/// One design in all rounds. Clocks per second in millions; a ratio over 1
/// says that main is faster.
pub struct Measured {
    pub name: &'static str,
    pub clocks: u32,
    pub second: f64,
    pub main: f64,
    pub ratio: f64,
    pub least: f64,
    pub most: f64,
    /// What a clock by itself takes, where a clock of a run takes 1.
    pub alone: f64,
}

pub fn measure(
    name: &'static str,
    file: &[u8],
    rounds: usize,
    wanted: Duration,
) -> Result<Measured, String> {
    let clocks = clock_count(file, wanted)?;
    // The first round only warms up.
    round(file, clocks, true)?;
    let mut took = Vec::new();
    for number in 0..rounds {
        took.push(round(file, clocks, number % 2 == 1)?);
    }
    let alone = (0..rounds)
        .map(|_| alone(file, clocks))
        .collect::<Result<_, _>>()?;
    let per_second = |seconds: Vec<f64>| f64::from(clocks) / median(seconds) / 1e6;
    let ratios: Vec<f64> = took.iter().map(|(second, main)| second / main).collect();
    Ok(Measured {
        name,
        clocks,
        second: per_second(took.iter().map(|(second, _)| *second).collect()),
        main: per_second(took.iter().map(|(_, main)| *main).collect()),
        least: ratios.iter().copied().fold(f64::INFINITY, f64::min),
        most: ratios.iter().copied().fold(0.0, f64::max),
        ratio: median(ratios),
        alone: median(alone),
    })
}
