//! Comparing the lister: each input to a process of its own.

use std::io::{Read, Write};
use std::process::{Command, Stdio};
use std::sync::atomic::{AtomicBool, Ordering};
use std::sync::{mpsc, Mutex};
use std::thread;
use std::time::Duration;

use generator::cases::CASES;
use generator::random::Random;
use generator::running::{nth_design, RUN_FAMILIES};
use generator::{nth_file, FAMILIES};
use second::{read, Ending};

use crate::arguments::Arguments;
use crate::shown::shown;

/// The fewest lists that each letter and ending must have been in.
const ENOUGH: u64 = 10;

/// How long one process may take; a list that never ends is killed.
const PATIENCE: Duration = Duration::from_secs(60);

/// An input, what the lister has to print for it, and where it is from.
struct Case {
    origin: String,
    input: Vec<u8>,
    expected: Vec<u8>,
}

pub fn compare(arguments: &Arguments) -> Result<String, String> {
    let program = arguments.program.as_deref().ok_or("--program is missing")?;
    let cases = cases(arguments)?;
    let tally = Tally::of(&cases);
    run_all(program, &cases)?;
    let line = tally.line(arguments.seed, cases.len());
    match tally.covers() {
        true => Ok(line),
        false => Err(format!("{line}\nthe lists were not varied enough")),
    }
}

/// The stored cases, whose prints are the document's, and random ones.
fn cases(arguments: &Arguments) -> Result<Vec<Case>, String> {
    let mut all = Vec::new();
    for stored in CASES {
        let case = stored.parse()?;
        all.push(Case {
            origin: format!("stored case {}", stored.name),
            input: case.input,
            expected: case.prints.into_bytes(),
        });
    }
    let spoilt = FAMILIES.iter().filter(|(name, _)| *name == "spoilt");
    let families: Vec<Vec<u8>> = RUN_FAMILIES
        .iter()
        .chain(spoilt)
        .flat_map(|(_, family)| sampled(family()))
        .collect();
    for index in 0..arguments.count {
        let mut random = Random::of_file(!arguments.seed, index);
        let input = input(&mut random, arguments.seed, index, &families);
        let mut expected = Vec::new();
        second::lister(&input, &mut expected).map_err(|error| error.to_string())?;
        all.push(Case {
            origin: format!("seed {}, input {index}", arguments.seed),
            input,
            expected,
        });
    }
    Ok(all)
}

/// At most so many of a family, evenly.
fn sampled(files: Vec<Vec<u8>>) -> Vec<Vec<u8>> {
    let step = files.len() / 40 + 1;
    files.into_iter().step_by(step).collect()
}

/// A clock count and a file; sometimes less than a clock count.
fn input(random: &mut Random, seed: u64, index: u64, families: &[Vec<u8>]) -> Vec<u8> {
    let file = match random.below(20) {
        0 => return vec![1; random.below(5)],
        1..=3 => nth_file(seed, index),
        4..=9 => families[random.below(families.len())].clone(),
        _ => nth_design(seed, index),
    };
    let count = clock_count(random, &file);
    [&count.to_le_bytes(), &file[..]].concat()
}

/// Few clocks, or very many where the list ends by itself.
fn clock_count(random: &mut Random, file: &[u8]) -> u32 {
    let few = random.pick(&[0, 1, 2, 3, 5, 8, 13, 40, 300]);
    let Ok(design) = read(file) else {
        return few;
    };
    let mut state = vec![0; design.instances.len()];
    let probe = second::start(&design, &mut state)
        .and_then(|()| second::run(&design, &mut state, 300))
        .map(|run| run.ending);
    match probe {
        Ok(Ending::Limit) | Err(_) => few,
        Ok(_) => random.pick(&[few, 300, 1 << 24, 1 << 31, u32::MAX]),
    }
}

/// As many processes at a time as there are processors.
fn run_all(program: &str, cases: &[Case]) -> Result<(), String> {
    let threads = thread::available_parallelism().map_or(2, |count| count.get());
    let failed = AtomicBool::new(false);
    let first: Mutex<Result<(), String>> = Mutex::new(Ok(()));
    thread::scope(|scope| {
        for number in 0..threads {
            let (failed, first) = (&failed, &first);
            scope.spawn(move || {
                for case in cases.iter().skip(number).step_by(threads) {
                    if failed.load(Ordering::Relaxed) {
                        return;
                    }
                    if let Err(text) = judge(program, case) {
                        failed.store(true, Ordering::Relaxed);
                        *first.lock().expect("no thread panics") = Err(text);
                    }
                }
            });
        }
    });
    first.into_inner().expect("no thread panics")
}

fn judge(program: &str, case: &Case) -> Result<(), String> {
    let most = case.expected.len() + 65_536;
    let (printed, ended) = printed(program, &case.input, most)
        .map_err(|error| format!("compare lister: {program}: {error}"))?;
    if ended && printed == case.expected {
        return Ok(());
    }
    let (at, expected, got) = first_difference(&case.expected, &printed);
    let end = if ended { "" } else { " and was killed" };
    Err(format!(
        "compare lister: the programs differ on {}\n\
         line {at}: second {expected:?}, main {got:?}{end}\ninput {}",
        case.origin,
        shown(&case.input)
    ))
}

/// What the program prints, up to so many bytes, and whether it came to its
/// end by itself. The exit status is not laid down, so it is not looked at.
fn printed(program: &str, input: &[u8], most: usize) -> std::io::Result<(Vec<u8>, bool)> {
    let mut child = Command::new(program)
        .stdin(Stdio::piped())
        .stdout(Stdio::piped())
        .stderr(Stdio::null())
        .spawn()?;
    let mut stdin = child.stdin.take().expect("it is piped");
    let mut stdout = child.stdout.take().expect("it is piped").take(most as u64);
    let (send, receive) = mpsc::channel();
    thread::scope(|scope| {
        // On a thread of its own: the list may begin before all is read. A
        // program that has seen enough may close its side.
        scope.spawn(move || drop(stdin.write_all(input)));
        scope.spawn(move || {
            let mut out = Vec::new();
            let read = stdout.read_to_end(&mut out);
            drop(send.send(read.map(|_| out)));
        });
        let list = receive.recv_timeout(PATIENCE);
        let too_long = matches!(&list, Ok(Ok(out)) if out.len() == most);
        if list.is_err() || too_long {
            child.kill()?;
        }
        let status = child.wait()?;
        Ok((list.unwrap_or(Ok(Vec::new()))?, status.code().is_some()))
    })
}

/// The number of the first line that differs, and both lines.
fn first_difference(expected: &[u8], printed: &[u8]) -> (usize, String, String) {
    let lines = |text: &[u8]| -> Vec<String> {
        let text = String::from_utf8_lossy(text).to_string();
        text.split_inclusive('\n').map(str::to_string).collect()
    };
    let (expected, printed) = (lines(expected), lines(printed));
    let nth = |lines: &[String], at: usize| lines.get(at).cloned().unwrap_or_default();
    let longest = expected.len().max(printed.len());
    let differs = |at: &usize| nth(&expected, *at) != nth(&printed, *at);
    let at = (0..longest).find(differs).unwrap_or(longest);
    (at, nth(&expected, at), nth(&printed, at))
}

/// In how many lists each letter and each ending was.
struct Tally {
    letters: [(char, u64); 8],
    endings: [(&'static str, u64); 4],
}

impl Tally {
    fn of(cases: &[Case]) -> Self {
        let mut tally = Tally {
            letters: ['F', 'U', 'A', 'E', 'H', 'S', '-', '.'].map(|letter| (letter, 0)),
            endings: ["LIMIT", "QUIET", "STUCK", "REFUSED"].map(|word| (word, 0)),
        };
        for case in cases {
            tally.add(&String::from_utf8_lossy(&case.expected));
        }
        tally
    }

    fn add(&mut self, text: &str) {
        let mut seen = String::new();
        for line in text.lines() {
            match line.split(' ').collect::<Vec<_>>()[..] {
                [word, ..] if word.starts_with(char::is_alphabetic) => {
                    let mut endings = self.endings.iter_mut();
                    if let Some((_, times)) = endings.find(|(name, _)| *name == word) {
                        *times += 1;
                    }
                }
                [_, letters, ..] => seen += letters,
                _ => {}
            }
        }
        for (letter, times) in &mut self.letters {
            *times += u64::from(seen.contains(*letter));
        }
    }

    fn covers(&self) -> bool {
        let letters = self.letters.iter().map(|(_, times)| times);
        let endings = self.endings.iter().map(|(_, times)| times);
        letters.chain(endings).all(|times| *times >= ENOUGH)
    }

    fn line(&self, seed: u64, processes: usize) -> String {
        format!(
            "compare lister: {processes} lists, seed {seed}, letters {:?}, endings {:?}",
            self.letters, self.endings
        )
    }
}

#[cfg(test)]
mod tests {
    use super::*;

    #[test]
    fn the_first_line_that_differs() {
        let difference = first_difference(b"0 F\n1 F\nLIMIT 2\n", b"0 F\n1 U\nLIMIT 2\n");
        assert_eq!(difference, (1, "1 F\n".to_string(), "1 U\n".to_string()));
        // A missing end of line counts.
        let difference = first_difference(b"LIMIT 0\n", b"LIMIT 0");
        assert_eq!(difference.0, 0);
        assert_eq!(first_difference(b"0 F\n", b"").2, "");
    }

    #[test]
    fn letters_and_endings_are_told() {
        let mut tally = Tally::of(&[]);
        tally.add("0 FU-S 3 -4\nSTUCK 0 1 22 5 -\n");
        tally.add("0 .\nQUIET 0\n");
        tally.add("REFUSED 2 0\n");
        let seen: Vec<u64> = tally.letters.iter().map(|(_, times)| *times).collect();
        assert_eq!(seen, [1, 1, 0, 0, 0, 1, 1, 1]);
        let ended: Vec<u64> = tally.endings.iter().map(|(_, times)| *times).collect();
        assert_eq!(ended, [0, 1, 1, 1]);
    }
}
