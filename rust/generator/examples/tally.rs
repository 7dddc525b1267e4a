//! What the files are like, by the second program alone; no archive needed.
//! Arguments: seed, count.

use std::time::Instant;

fn main() {
    let mut arguments = std::env::args().skip(1);
    let mut number = |otherwise| match arguments.next() {
        Some(text) => text.parse().expect("a number"),
        None => otherwise,
    };
    let (seed, count) = (number(1u64), number(200_000u64));
    let begin = Instant::now();
    let mut tally = Tally::default();
    for index in 0..count {
        tally.add(&generator::nth_file(seed, index));
    }
    tally.print("random", begin);
    let mut all = Tally::default();
    let begin = Instant::now();
    for (name, family) in generator::FAMILIES {
        let begin = Instant::now();
        let mut tally = Tally::default();
        for file in family() {
            tally.add(&file);
            all.add(&file);
        }
        tally.print(name, begin);
    }
    all.print("all families", begin);
}

#[derive(Default)]
struct Tally {
    files: usize,
    bytes: usize,
    numbers: [usize; 10],
}

impl Tally {
    fn add(&mut self, file: &[u8]) {
        let number = match second::read(file) {
            Ok(_) => 0,
            Err(refusal) => refusal.number,
        };
        self.files += 1;
        self.bytes += file.len();
        self.numbers[usize::from(number)] += 1;
    }

    fn print(&self, name: &str, begin: Instant) {
        let seconds = begin.elapsed().as_secs_f64();
        let mean = self.bytes / self.files.max(1);
        let numbers = &self.numbers;
        println!(
            "{name}: {} files of {mean} bytes, {seconds:.2} s, {numbers:?}",
            self.files
        );
    }
}
