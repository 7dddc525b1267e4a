//! What the designs to be run are like, by the second program alone.
//! Arguments: seed, count.

use std::time::Instant;

use generator::random::Random;
use generator::running::{nth_design, states, RUN_FAMILIES};
use second::{check, read, start, Clocked, Design, Runner};

fn main() {
    let mut arguments = std::env::args().skip(1);
    let mut number = |otherwise| match arguments.next() {
        Some(text) => text.parse().expect("a number"),
        None => otherwise,
    };
    let (seed, count) = (number(1u64), number(100_000u64));
    let begin = Instant::now();
    let mut tally = Tally::default();
    for index in 0..count {
        let file = nth_design(seed, index);
        let design = read(&file).expect("a design");
        tally.add(&design, &mut Random::of_file(seed, index));
    }
    tally.print("random", begin);
    for (name, family) in RUN_FAMILIES {
        let begin = Instant::now();
        let mut tally = Tally::default();
        for (index, file) in family().iter().enumerate() {
            let design = read(file).expect("a design");
            tally.add(&design, &mut Random::of_file(seed, index as u64));
        }
        tally.print(name, begin);
    }
}

#[derive(Default)]
struct Tally {
    designs: u64,
    checks: [u64; 8],
    passed: u64,
    clocks: u64,
    fired_clocks: u64,
    fates: [u64; 7],
    stuck: [u64; 8],
    displays: u64,
}

impl Tally {
    fn add(&mut self, design: &Design, random: &mut Random) {
        self.designs += 1;
        match check(design) {
            Ok(()) => self.passed += 1,
            Err(failure) => self.checks[usize::from(failure.number - 21)] += 1,
        }
        let mut state = states::state(random, design.instances.len());
        if random.in_hundred(50) {
            start(design, &mut state).expect("the right length");
        }
        let mut runner = Runner::new(design);
        for _ in 0..8 {
            let answer = runner.clock(&mut state);
            self.clocks += 1;
            for fate in &runner.fates {
                self.fates[*fate as usize] += 1;
            }
            match answer {
                Clocked::Done { fired, displays } => {
                    self.fired_clocks += u64::from(fired);
                    self.displays += displays as u64;
                }
                Clocked::Stuck { reason, .. } => {
                    self.stuck[usize::from(reason.number() - 21)] += 1;
                }
            }
            states::overwrite(random, &mut state);
        }
    }

    fn print(&self, name: &str, begin: Instant) {
        println!(
            "{name}: {} designs, {:.2} s\n  check: {} pass, 21..28 {:?}\n  \
             clocks: {}, {} fired, {} displays\n  fates 0..6 {:?}\n  stuck 21..28 {:?}",
            self.designs,
            begin.elapsed().as_secs_f64(),
            self.passed,
            self.checks,
            self.clocks,
            self.fired_clocks,
            self.displays,
            self.fates,
            self.stuck
        );
    }
}
