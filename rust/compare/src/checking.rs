//! Comparing the check, and running what passes it.

use cantaribol_sys::answer::is_reason;
use cantaribol_sys::Library;
use generator::random::Random;
use generator::running::states;
use second::{check, read, Clocked, Design, Refusal, Runner};

use crate::arguments::Arguments;
use crate::found::{report, same, Found, Judged};
use crate::packed;
use crate::sources::each;
use crate::stage::Stage;

/// The fewest times that each number must have come up.
const ENOUGH: u64 = 50;

#[derive(Default)]
struct Tally {
    files: u64,
    passed: u64,
    /// Failures by number, from 21.
    failed: [u64; 8],
    /// Refusals by number, from 1.
    refused: [u64; 9],
    /// Clocks of designs that passed; none may be stuck.
    clocks: u64,
}

impl Tally {
    fn add(&mut self, answer: &Result<(), Refusal>) {
        self.files += 1;
        match answer.map_err(|refusal| usize::from(refusal.number)) {
            Ok(()) => self.passed += 1,
            Err(number @ 21..) => self.failed[number - 21] += 1,
            Err(number) => self.refused[number - 1] += 1,
        }
    }

    fn covers(&self) -> bool {
        let mut all = self.failed.iter().chain(&self.refused);
        all.all(|times| *times >= ENOUGH) && self.passed >= ENOUGH
    }

    fn line(&self, seed: u64) -> String {
        format!(
            "compare check: {} files, seed {seed}, {} pass, 21..28: {:?}, \
             refused 1..9: {:?}, {} clocks of those that pass, none stuck",
            self.files, self.passed, self.failed, self.refused, self.clocks
        )
    }
}

pub fn compare(arguments: &Arguments, library: &dyn Library) -> Result<String, String> {
    let mut tally = Tally::default();
    let mut stage = Stage::default();
    each(arguments, &mut |source| {
        let design = read(source.file);
        let answer = match &design {
            Ok(design) => check(design),
            Err(refusal) => Err(*refusal),
        };
        tally.add(&answer);
        let main = library.check(stage.put(source.file, source.index));
        let question = || "check".to_string();
        let mut judged = same(question, packed::plain(&answer), main, packed::plain_words);
        if let (Ok(()), Ok(()), Ok(design)) = (&judged, &answer, &design) {
            judged = never_stuck(
                library,
                source.file,
                design,
                source.random,
                &mut tally.clocks,
            );
        }
        judged.map_err(|found| report("check", &(source.origin)(), source.file, &found))
    })?;
    let line = tally.line(arguments.seed);
    match tally.covers() {
        true => Ok(line),
        false => Err(format!("{line}\nthe designs were not varied enough")),
    }
}

/// Clocks from random states with overwrites in between, by both programs.
fn never_stuck(
    library: &dyn Library,
    file: &[u8],
    design: &Design,
    mut random: Random,
    clocks: &mut u64,
) -> Judged {
    let mut runner = Runner::new(design);
    for _ in 0..3 {
        let mut state = states::state(&mut random, design.instances.len());
        for _ in 0..3 {
            *clocks += 1;
            main_is_not_stuck(library, file, &state)?;
            if let Clocked::Stuck { rule, reason, .. } = runner.clock(&mut state) {
                return Err(Found {
                    question: format!("clock of a design that passes, to {state:?}"),
                    second: format!("rule {rule} stuck with {}", reason.number()),
                    main: "not asked".to_string(),
                });
            }
            states::overwrite(&mut random, &mut state);
        }
    }
    Ok(())
}

fn main_is_not_stuck(library: &dyn Library, file: &[u8], state: &[i32]) -> Judged {
    let answer = library.run(file, &mut state.to_vec(), 2);
    same(
        || format!("run of 2 of a design that passes, from {state:?}"),
        0,
        if is_reason(answer) { answer } else { 0 },
        packed::run_words,
    )
}
