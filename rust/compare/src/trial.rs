//! Both programs on one file: clocks, start values and runs, from states of
//! the right length and of wrong ones, with overwrites in between.

use cantaribol_sys::Library;
use generator::random::Random;
use generator::running::states;
use second::{Clocked, Design, Ending, Refusal, DISPLAY_ROOM, FATE_ROOM};

use crate::found::{same, Judged};
use crate::lent::Lent;
use crate::packed;
use crate::run_tally::RunTally;

/// A design that has not ended after this many clocks is not run for ever.
const PROBE: u32 = 150;

pub struct Trial<'a> {
    pub library: &'a dyn Library,
    pub file: &'a [u8],
    pub read: &'a Result<Design, Refusal>,
    pub random: Random,
    pub tally: &'a mut RunTally,
}

impl Trial<'_> {
    pub fn all(&mut self) -> Judged {
        let Ok(design) = self.read else {
            return self.wrong_lengths(3);
        };
        let instances = design.instances.len();
        self.clocks(instances)?;
        self.runs(design)?;
        match self.random.in_hundred(30) {
            true => self.wrong_lengths(instances),
            false => Ok(()),
        }
    }

    /// Some state, or the start values among what stood there.
    fn state(&mut self, instances: usize) -> Judged<Lent> {
        let mut state = Lent::of("state", &states::state(&mut self.random, instances));
        if self.random.in_hundred(55) {
            self.start(&mut state)?;
        }
        Ok(state)
    }

    /// A row of clocks on the same buffers, so that older entries stay.
    fn clocks(&mut self, instances: usize) -> Judged {
        let mut state = self.state(instances)?;
        let fate_room = FATE_ROOM + self.random.below(3);
        let mut fates = Lent::blank("fates", fate_room);
        let display_room = DISPLAY_ROOM + self.random.below(3);
        let mut displays = Lent::blank("displays", display_room);
        for _ in 0..self.random.within(1, 7) {
            self.clock(&mut state, &mut fates, &mut displays)?;
            let random = &mut self.random;
            state.change(|words| states::overwrite(random, words));
        }
        Ok(())
    }

    fn clock(&mut self, state: &mut Lent, fates: &mut Lent<u8>, displays: &mut Lent) -> Judged {
        let before = state.words().to_vec();
        let lengths = (fates.words().len(), displays.words().len());
        let question = || format!("clock from {before:?}, rooms {lengths:?}");
        let (own_state, state_words) = state.both();
        let (own_fates, fate_words) = fates.both();
        let (own_displays, display_words) = displays.both();
        let answer = match self.read {
            Ok(design) => second::clock(design, own_state, own_fates, own_displays),
            Err(refusal) => Err(*refusal),
        };
        let main = self
            .library
            .clock(self.file, state_words, fate_words, display_words);
        same(question, packed::clock(&answer), main, packed::clock_words)?;
        state.agree(question)?;
        fates.agree(question)?;
        displays.agree(question)?;
        self.tally_clock(&answer, fates.words());
        Ok(())
    }

    fn tally_clock(&mut self, answer: &Result<Clocked, Refusal>, fates: &[u8]) {
        let entries = match (answer, self.read) {
            (Ok(_), Ok(design)) => design.schedule.len(),
            _ => 0,
        };
        self.tally.clock(answer, &fates[..entries]);
    }

    fn start(&mut self, state: &mut Lent) -> Judged {
        let length = state.words().len();
        let question = || format!("start values of {length} words");
        let (own, words) = state.both();
        let answer = match self.read {
            Ok(design) => second::start(design, own),
            Err(refusal) => Err(*refusal),
        };
        let main = self.library.start(self.file, words);
        same(question, packed::plain(&answer), main, packed::plain_words)?;
        self.tally.start(&answer);
        state.agree(question)
    }

    fn runs(&mut self, design: &Design) -> Judged {
        for _ in 0..2 {
            let mut state = self.state(design.instances.len())?;
            let n = self.clock_count(design, state.words());
            self.run(&mut state, n)?;
        }
        Ok(())
    }

    /// Few clocks; any number when the run ends by itself before long.
    fn clock_count(&mut self, design: &Design, state: &[i32]) -> u32 {
        let probe = second::run(design, &mut state.to_vec(), PROBE);
        match probe.map(|run| (run.ending, run.count)) {
            Ok((Ending::Quiet | Ending::Stuck { .. }, count)) => {
                let near = [count, count + 1, count + 2, PROBE];
                let far = [1 << 16, 1 << 31, u32::MAX - 1, u32::MAX];
                let choice = [near, far].concat();
                self.random.pick(&choice)
            }
            _ => self.random.pick(&[0, 1, 1, 2, 2, 3, 4, 5, 17, 100]),
        }
    }

    fn run(&mut self, state: &mut Lent, n: u32) -> Judged {
        let before = state.words().to_vec();
        let question = || format!("run of {n} from {before:?}");
        let (own, words) = state.both();
        let answer = match self.read {
            Ok(design) => second::run(design, own, n),
            Err(refusal) => Err(*refusal),
        };
        let main = self.library.run(self.file, words, n);
        same(question, packed::run(&answer), main, packed::run_words)?;
        self.tally.run(&answer);
        state.agree(question)
    }

    /// Buffers too short or too long, several at once: the first test of
    /// 10, 11 and 12 that fails decides, and nothing is changed.
    fn wrong_lengths(&mut self, instances: usize) -> Judged {
        let wrong = [0, instances.saturating_sub(1), instances + 1, 64, 65];
        let length = match self.random.in_hundred(50) {
            true => instances,
            false => self.random.pick(&wrong),
        };
        let state = states::state(&mut self.random, length);
        let fate_room = self.random.pick(&[0, 1, 63, 63, 64, 64, 65, 4096]);
        let display_room = self.random.pick(&[0, 64, 4095, 4095, 4096, 4096, 4097]);
        let mut fates = Lent::blank("fates", fate_room);
        let mut displays = Lent::blank("displays", display_room);
        self.clock(&mut Lent::of("state", &state), &mut fates, &mut displays)?;
        self.start(&mut Lent::of("state", &state))?;
        let n = self.random.pick(&[0, 1, 2, 5]);
        self.run(&mut Lent::of("state", &state), n)
    }
}

#[cfg(test)]
mod tests {
    use super::*;
    use crate::lent::Word;
    use generator::running::known::fifo;
    use second::read;

    /// The second program as a main program, with one lie or none.
    struct Lying(&'static str);

    impl Lying {
        fn tell(&self, name: &str, truth: u64) -> u64 {
            truth + u64::from(self.0 == name)
        }

        fn spoil<W: Word>(&self, name: &str, words: &mut [W], at: usize) {
            if self.0 == name && at < words.len() {
                words[at] = words[at].other();
            }
        }
    }

    impl Library for Lying {
        fn clock(
            &self,
            file: &[u8],
            state: &mut [i32],
            fates: &mut [u8],
            displays: &mut [i32],
        ) -> u64 {
            let answer =
                read(file).and_then(|design| second::clock(&design, state, fates, displays));
            if answer.is_err() {
                self.spoil("refused state", state, 0);
                self.spoil("refused fates", fates, 5);
                self.spoil("refused displays", displays, 5);
            } else {
                self.spoil("clock state", state, 0);
                self.spoil("user state", state, 4);
                self.spoil("fate", fates, 0);
                self.spoil("fate past the schedule", fates, 63);
                self.spoil("display past the last", displays, 4095);
            }
            self.tell("clock", packed::clock(&answer))
        }

        fn start(&self, file: &[u8], state: &mut [i32]) -> u64 {
            let answer = read(file).and_then(|design| second::start(&design, state));
            self.spoil("started user", state, 3);
            self.tell("start", packed::plain(&answer))
        }

        fn run(&self, file: &[u8], state: &mut [i32], n: u32) -> u64 {
            let answer = read(file).and_then(|design| second::run(&design, state, n));
            self.spoil("run state", state, 1);
            self.tell("run", packed::run(&answer))
        }
    }

    /// Is the lie found in some trials on this file?
    fn found(lie: &'static str, file: &[u8]) -> bool {
        let mut tally = RunTally::default();
        (0..40).any(|seed| {
            let mut trial = Trial {
                library: &Lying(lie),
                file,
                read: &read(file),
                random: Random::new(seed),
                tally: &mut tally,
            };
            trial.all().is_err()
        })
    }

    #[test]
    fn every_lie_is_found() {
        let file = fifo(1, 0, &[1, 0]).file();
        assert!(!found("nothing", &file));
        let lies = [
            "clock",
            "clock state",
            "user state",
            "fate",
            "fate past the schedule",
            "display past the last",
            "refused state",
            "refused fates",
            "refused displays",
            "start",
            "started user",
            "run",
            "run state",
        ];
        for lie in lies {
            assert!(found(lie, &file), "{lie}");
        }
        let refused = &file[..file.len() - 1];
        assert!(!found("nothing", refused));
        for lie in ["clock", "start", "run", "refused state", "run state"] {
            assert!(found(lie, refused), "{lie}");
        }
    }
}
