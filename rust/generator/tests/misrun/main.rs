//! Wrong interpreters, each with one misreading of document 01: the designs
//! have to tell every one of them from the right one. The interpreter here is
//! a third one, straight over the bytes; without a twist it must agree with
//! the second program on everything.

mod check;
mod clock;
mod third;
mod twist;

use generator::random::Random;
use generator::running::{nth_design, states, RUN_FAMILIES};
use generator::{nth_file, FAMILIES};
use second::{Clocked, Design, Ending};

use third::Third;
use twist::{Twist, TWISTS};

/// All that is seen of a program on one design, as numbers.
type Seen = Vec<i64>;

/// A fate that no program gives.
const BLANK: u8 = 250;

/// What both are asked: states, overwrites and clock counts from a seed.
fn questions(seed: u64) -> Random {
    Random::new(seed)
}

fn add_words<W: Copy + Into<i64>>(seen: &mut Seen, words: &[W]) {
    seen.extend(words.iter().map(|word| (*word).into()));
}

fn by_second(file: &[u8], design: &Design, seed: u64) -> Seen {
    let mut random = questions(seed);
    let mut seen = vec![];
    match second::check(design) {
        Ok(()) => seen.extend([0, 0]),
        Err(failure) => seen.extend([i64::from(failure.number), failure.place as i64]),
    }
    let mut state = states::state(&mut random, design.instances.len());
    let mut fates = vec![BLANK; 66];
    for clock in 0..5 {
        if clock == 3 {
            second::start(design, &mut state).expect("the right length");
        }
        add_clock(&mut seen, design, &mut state, &mut fates);
        add_words(&mut seen, &state);
        add_words(&mut seen, &fates);
        states::overwrite(&mut random, &mut state);
    }
    for n in 0..3 {
        let run = second::run(design, &mut state, n).expect("the right length");
        seen.extend(match run.ending {
            Ending::Limit => [0, 0],
            Ending::Quiet => [100, 0],
            Ending::Stuck { rule, reason } => [i64::from(reason.number()), i64::from(rule)],
        });
        seen.push(i64::from(run.count));
    }
    add_words(&mut seen, &state);
    add_list(&mut seen, listed(file, random.below(4) as u32));
    seen
}

/// One clock's answer, and the displays it made.
fn add_clock(seen: &mut Seen, design: &Design, state: &mut [i32], fates: &mut [u8]) {
    let mut displays = vec![0; 4096];
    let answer = second::clock(design, state, fates, &mut displays);
    let made = match answer.expect("the right lengths") {
        Clocked::Done { fired, displays } => {
            seen.push(i64::from(fired));
            displays
        }
        Clocked::Stuck {
            rule,
            reason,
            displays,
        } => {
            seen.extend([i64::from(rule), i64::from(reason.number())]);
            displays
        }
    };
    add_words(seen, &displays[..made]);
}

fn add_list(seen: &mut Seen, text: String) {
    seen.extend(text.bytes().map(i64::from));
}

fn listed(file: &[u8], count: u32) -> String {
    let mut out = vec![];
    let input = [&count.to_le_bytes(), file].concat();
    second::lister(&input, &mut out).expect("a list takes all");
    String::from_utf8(out).expect("plain letters")
}

fn by_third(file: &[u8], design: &Design, seed: u64, twist: Twist) -> Seen {
    let mut third = Third::new(file, design, twist);
    let mut random = questions(seed);
    let (number, place) = third.check();
    let mut seen = vec![i64::from(number), place as i64];
    let mut state = states::state(&mut random, design.instances.len());
    let mut fates = vec![BLANK; 66];
    for clock in 0..5 {
        if clock == 3 {
            third.start(&mut state);
        }
        let clocked = third.clock(&mut state, &mut fates);
        match clocked.stuck {
            None => seen.push(i64::from(clocked.fired)),
            Some((rule, number)) => seen.extend([i64::from(rule), i64::from(number)]),
        }
        add_words(&mut seen, &clocked.displays);
        add_words(&mut seen, &state);
        add_words(&mut seen, &fates);
        states::overwrite(&mut random, &mut state);
    }
    for n in 0..3 {
        let ran = third.run(&mut state, n, &mut String::new());
        seen.extend([ran.ending.into(), ran.rule.into(), i64::from(ran.count)]);
    }
    add_words(&mut seen, &state);
    let count = random.below(4) as u32;
    add_list(&mut seen, third.list(count.to_le_bytes()));
    seen
}

/// The twists that none of the designs tells from the right reading.
struct Left {
    twists: Vec<Twist>,
}

impl Left {
    fn all() -> Self {
        Left {
            twists: TWISTS.to_vec(),
        }
    }

    fn show(&mut self, file: &[u8], seed: u64) {
        let design = match second::read(file) {
            Ok(design) => design,
            Err(refusal) => {
                let refused = |twist| clock::refused(refusal.number, refusal.place, twist);
                let right = listed(file, 1);
                assert_eq!(refused(Twist::Untwisted), right);
                self.twists.retain(|twist| refused(*twist) == right);
                return;
            }
        };
        let right = by_second(file, &design, seed);
        let third = by_third(file, &design, seed, Twist::Untwisted);
        assert!(third == right, "{file:02X?}\n{right:?}\n{third:?}");
        let same = |twist: &Twist| by_third(file, &design, seed, *twist) == right;
        self.twists.retain(same);
    }
}

#[test]
fn families_tell_every_twist() {
    let mut left = Left::all();
    let spoilt = FAMILIES.iter().filter(|(name, _)| *name == "spoilt");
    for (_, family) in RUN_FAMILIES.iter().chain(spoilt) {
        for (index, file) in family().iter().enumerate() {
            left.show(file, index as u64);
        }
    }
    assert!(left.twists.is_empty(), "{:?}", left.twists);
}

#[test]
fn random_designs_tell_every_twist() {
    let mut left = Left::all();
    for index in 0..60_000 {
        match index % 20 {
            0 => left.show(&nth_file(12, index), index),
            _ => left.show(&nth_design(12, index), index),
        }
    }
    assert!(left.twists.is_empty(), "{:?}", left.twists);
}
