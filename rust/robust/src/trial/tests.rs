//! A library that lies once is found, so the judging can fail.

use super::*;
use cantaribol_sys::answer::is_refusal;
use cantaribol_sys::Main;
use generator::parts::{always, and, display, num, plus, read, rule, truth, write};
use generator::record::{Plan, Record};
use generator::running::known::{fifo, gcd};

/// The main program with one lie.
struct Lying(&'static str);

impl Lying {
    fn tell(&self, name: &str, truth: u64, lie: u64) -> u64 {
        match self.0 == name {
            true => lie,
            false => truth,
        }
    }

    fn spoil<W>(&self, name: &str, words: &mut [W], at: usize, change: impl Fn(&mut W)) {
        if self.0 == name && at < words.len() {
            change(&mut words[at]);
        }
    }
}

impl Library for Lying {
    fn read(&self, file: &[u8]) -> u64 {
        let answer = Main.read(file);
        let answer = self.tell("refusal 13", answer, 13);
        self.tell("place past the file", answer, 2 + 256 * file.len() as u64)
    }

    fn counts(&self, file: &[u8]) -> u64 {
        let answer = Main.counts(file);
        self.tell("counts", answer, answer + 1)
    }

    fn rule_part(&self, file: &[u8], rule: u64) -> u64 {
        let answer = Main.rule_part(file, rule);
        self.tell("rule part", answer, answer + 1)
    }

    fn method_part(&self, file: &[u8], instance: u64, method: u64) -> u64 {
        let answer = Main.method_part(file, instance, method);
        self.tell("method part", answer, answer + 65_536)
    }

    fn check(&self, file: &[u8]) -> u64 {
        let answer = self.tell("passes all", Main.check(file), 0);
        self.tell("check place", answer, 21 + 256)
    }

    fn start(&self, file: &[u8], state: &mut [i32]) -> u64 {
        let answer = Main.start(file, state);
        self.spoil("start state", state, 0, |word| *word ^= 1);
        self.tell("start", answer, answer ^ 9)
    }

    fn clock(&self, file: &[u8], state: &mut [i32], fates: &mut [u8], displays: &mut [i32]) -> u64 {
        let answer = Main.clock(file, state, fates, displays);
        if is_refusal(answer) {
            self.spoil("refused state", state, 0, |word| *word ^= 1);
            self.spoil("refused fates", fates, 0, |fate| *fate ^= 1);
            self.spoil("refused displays", displays, 0, |word| *word ^= 1);
        }
        let edge_by_place = (displays.as_ptr() as usize).is_multiple_of(4096);
        if edge_by_place && !is_refusal(answer) {
            self.spoil("by edge", displays, 0, |word| *word ^= 1);
        }
        self.spoil("fate 7", fates, 0, |fate| *fate = 7);
        self.spoil("fate past the schedule", fates, 63, |fate| *fate ^= 1);
        self.spoil("display past the last", displays, 4095, |word| *word ^= 1);
        let last = state.len().saturating_sub(1);
        self.spoil("user state", state, last, |word| *word ^= 1);
        self.tell("fired", answer, answer ^ 256)
    }

    fn prepare(&self, file: &[u8], plan: &mut [u16]) -> u64 {
        let answer = Main.prepare(file, plan);
        self.spoil("plan", plan, 1024, |number| *number ^= 1);
        self.spoil("past the plan", plan, 1092, |number| *number ^= 1);
        self.tell("prepare", answer, answer + 256)
    }

    fn tick(
        &self,
        file: &[u8],
        plan: &[u16],
        state: &mut [i32],
        fates: &mut [u8],
        displays: &mut [i32],
        log: &mut [u64],
    ) -> u64 {
        let answer = Main.tick(file, plan, state, fates, displays, log);
        self.spoil("tick state", state, 0, |word| *word ^= 1);
        self.spoil("tick fates", fates, 0, |fate| *fate ^= 1);
        let short = plan.len() < 1092 || log.len() < 4096;
        let answer = self.tell("tick", answer, answer ^ 256);
        match short {
            true => self.tell("short plan", answer, 0),
            false => answer,
        }
    }

    fn run(&self, file: &[u8], state: &mut [i32], n: u32) -> u64 {
        let answer = Main.run(file, state, n);
        self.spoil("run state", state, 0, |word| *word ^= 1);
        self.tell("run", answer, answer + 65_536)
    }
}

/// Is the lie found in some trials on this file?
fn found(lie: &'static str, file: &[u8]) -> bool {
    let mut desk = Desk::new().expect("pages");
    let mut reached = Reached::default();
    let library = Lying(lie);
    (0..30).any(|seed| both_edges(&library, &mut desk, file, seed, &mut reached).is_err())
}

/// A rule that always displays, and one that is stuck.
fn stuck() -> Vec<u8> {
    let bad = write(0, 0, and(truth(true), truth(true)));
    Plan::new(vec![
        Record::Register { start: 3 },
        Record::User,
        Record::rule(always(display(plus(read(0, 0), num(1))))),
        Record::rule(rule(truth(true), bad)),
        Record::schedule(vec![0, 1]),
    ])
    .file()
}

#[test]
fn the_truth_is_not_found_wrong() {
    let whole = fifo(1, 0, &[1, 0]).file();
    for file in [
        &whole[..],
        &whole[..9],
        &stuck(),
        &[],
        &gcd(24, 16, 2).file(),
    ] {
        assert!(!found("nothing", file));
    }
}

#[test]
fn every_lie_is_found() {
    let file = fifo(1, 0, &[1, 0]).file();
    let lies = [
        "refusal 13",
        "place past the file",
        "counts",
        "rule part",
        "method part",
        "check place",
        "start",
        "start state",
        "refused state",
        "refused fates",
        "refused displays",
        "by edge",
        "fate 7",
        "fate past the schedule",
        "display past the last",
        "user state",
        "fired",
        "prepare",
        "plan",
        "past the plan",
        "tick",
        "tick state",
        "tick fates",
        "short plan",
        "run",
        "run state",
    ];
    for lie in lies {
        assert!(found(lie, &file), "{lie}");
    }
}

#[test]
fn lies_about_what_is_refused_or_stuck_are_found() {
    assert!(found("passes all", &stuck()));
    assert!(found("check place", &stuck()));
    assert!(found("fired", &stuck()));
    let refused = &fifo(1, 0, &[1, 0]).file()[..30];
    for lie in [
        "refused state",
        "start",
        "run",
        "run state",
        "passes all",
        "counts",
    ] {
        assert!(found(lie, refused), "{lie}");
    }
}
