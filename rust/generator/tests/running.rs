//! The designs to be run are what they are meant to be, by the second
//! program.

mod common;
use common::depth_of;
use generator::random::Random;
use generator::running::known::{chain, crowd, fifo, gcd, most_displays, tower};
use generator::running::lively::{lively, Mood};
use generator::running::{nth_design, states, RUN_FAMILIES};
use second::{check, read, start, Clocked, Design, Ending, Instance, Runner};

fn design_of(file: &[u8]) -> Design {
    read(file).unwrap_or_else(|refusal| panic!("{refusal:?} for {file:02X?}"))
}

fn check_number(design: &Design) -> u8 {
    check(design).map_or_else(|failure| failure.number, |()| 0)
}

/// Files of a family by its name.
fn family(name: &str) -> Vec<Vec<u8>> {
    let found = RUN_FAMILIES.iter().find(|(known, _)| *known == name);
    found.expect("a family of this name").1()
}

#[test]
fn a_seed_gives_the_same_designs() {
    let mut differing = 0;
    for index in 0..500 {
        assert_eq!(nth_design(3, index), nth_design(3, index));
        differing += usize::from(nth_design(3, index) != nth_design(4, index));
    }
    assert!(differing > 480);
    for (name, family) in RUN_FAMILIES {
        assert!(family() == family(), "{name}");
    }
}

#[test]
fn designs_without_slips_pass_the_check() {
    let mut random = Random::new(21);
    let moods = [Mood::small(), Mood::middle(), Mood::busy(), Mood::crowded()];
    for _ in 0..1500 {
        for mood in moods {
            let file = lively(&mut random, mood).file();
            assert_eq!(check_number(&design_of(&file)), 0, "{file:02X?}");
        }
    }
}

#[test]
fn designs_at_the_brink_pass_or_have_too_many_calls() {
    let mut random = Random::new(22);
    let mut numbers = [0; 2];
    for _ in 0..1000 {
        let file = lively(&mut random, Mood::brink()).file();
        match check_number(&design_of(&file)) {
            0 => numbers[0] += 1,
            27 => numbers[1] += 1,
            other => panic!("{other} for {file:02X?}"),
        }
    }
    assert!(numbers.iter().all(|times| *times > 100), "{numbers:?}");
}

/// How often each thing came up.
#[derive(Debug, Default)]
struct Tally {
    checks: [u64; 8],
    passed: u64,
    fates: [u64; 7],
    stuck: [u64; 8],
    endings: [u64; 3],
}

impl Tally {
    fn add(&mut self, file: &[u8], random: &mut Random) {
        let design = design_of(file);
        match check_number(&design) {
            0 => self.passed += 1,
            number => self.checks[usize::from(number - 21)] += 1,
        }
        let mut state = states::state(random, design.instances.len());
        if random.in_hundred(50) {
            start(&design, &mut state).expect("the right length");
        }
        let mut runner = Runner::new(&design);
        for _ in 0..4 {
            let answer = runner.clock(&mut state);
            if let Clocked::Stuck { reason, .. } = answer {
                self.stuck[usize::from(reason.number() - 21)] += 1;
            }
            for fate in &runner.fates {
                self.fates[*fate as usize] += 1;
            }
            states::overwrite(random, &mut state);
        }
        let run = second::run(&design, &mut state, 3).expect("the right length");
        self.endings[match run.ending {
            Ending::Limit => 0,
            Ending::Quiet => 1,
            Ending::Stuck { .. } => 2,
        }] += 1;
    }

    fn covers(&self) -> bool {
        let rows: [&[u64]; 4] = [&self.checks, &self.fates, &self.stuck, &self.endings];
        rows.concat().iter().all(|times| *times >= 50) && self.passed >= 50
    }
}

#[test]
fn everything_is_reached() {
    let mut random_tally = Tally::default();
    let mut random = Random::new(23);
    for index in 0..15_000 {
        random_tally.add(&nth_design(5, index), &mut random);
    }
    let mut family_tally = Tally::default();
    for (_, family) in RUN_FAMILIES {
        for file in family() {
            family_tally.add(&file, &mut random);
        }
    }
    assert!(random_tally.covers(), "{random_tally:?}");
    assert!(family_tally.covers(), "{family_tally:?}");
}

#[test]
fn layers_of_64_calls_pass_and_of_more_do_not() {
    // The totals 1 to 3 and 60 to 70 stand first, each in two ways.
    let files = family("layers");
    let totals = (1..=3).chain(60..=70);
    for (at, total) in totals.enumerate() {
        for file in &files[2 * at..2 * at + 2] {
            let expected = if total <= 64 { 0 } else { 27 };
            assert_eq!(check_number(&design_of(file)), expected, "{total}");
        }
    }
    for file in &files[28..158] {
        assert_eq!(check_number(&design_of(file)), 27);
    }
}

#[test]
fn the_deepest_designs_use_all_instances() {
    let files = family("deepest");
    let mut shown = 0;
    for file in &files {
        let design = design_of(file);
        assert_eq!(design.instances.len(), 64);
        let mut state = vec![0; 64];
        start(&design, &mut state).expect("the right length");
        let mut runner = Runner::new(&design);
        if let Clocked::Done { displays, .. } = runner.clock(&mut state) {
            shown += displays;
        }
    }
    assert!(shown >= 40, "{shown} of {}", files.len());
    // All but those that call down in conditions, which stand last; the
    // lowest method may have its leaf one higher.
    for file in &files[..files.len() - 7] {
        let depths = depths(&design_of(file));
        assert_eq!(depths.len(), 63);
        let deepest = depths.iter().filter(|depth| **depth == 16).count();
        assert!(deepest >= 62, "{depths:?}");
    }
}

/// How deep the bodies of methods are, and of the first rule.
fn depths(design: &Design) -> Vec<usize> {
    let mut all = vec![depth_of(&design.rules[0].body)];
    for instance in &design.instances {
        if let Instance::User { methods } = instance {
            all.extend(methods.iter().map(|method| depth_of(&method.body)));
        }
    }
    all
}

#[test]
fn known_designs_fire_for_long() {
    let plans = [
        crowd(),
        tower(),
        gcd(24, 16, 0),
        fifo(1, 0, &[1, 0]),
        fifo(0, 1, &[0, 1]),
        chain(4, 1, 0, &[4, 3, 2, 1, 0]),
    ];
    for plan in plans {
        let design = design_of(&plan.file());
        assert_eq!(check_number(&design), 0);
        let mut state = vec![0; design.instances.len()];
        start(&design, &mut state).expect("the right length");
        let run = second::run(&design, &mut state, 1000).expect("the right length");
        assert_eq!((run.ending, run.count), (Ending::Limit, 1000));
    }
}

#[test]
fn the_most_displays_fit() {
    let file = most_displays().file();
    assert!(file.len() > 30_000 && file.len() <= 32_768);
    let design = design_of(&file);
    assert_eq!(check_number(&design), 0);
    let mut runner = Runner::new(&design);
    let done = Clocked::Done {
        fired: true,
        displays: 4096,
    };
    assert_eq!(runner.clock(&mut [0]), done);
}

/// By the numbers alone, and not by the program: Req 02 at the rails, where
/// the difference of 33 bits does not fit 32, above and below.
#[test]
fn thresholds_cross_the_rails_both_ways() {
    let mut crossed = [0; 2];
    for file in family("thresholds") {
        let design = design_of(&file);
        assert_eq!(check_number(&design), 0);
        let mut state = [0; 3];
        start(&design, &mut state).expect("the right length");
        let difference = i64::from(state[0]) - i64::from(state[1]);
        crossed[0] += usize::from(difference < i64::from(i32::MIN));
        crossed[1] += usize::from(difference > i64::from(i32::MAX));
        let shown = match difference.signum() {
            -1 => 1,
            1 => 2,
            _ => 3,
        };
        let (mut fates, mut displays) = ([9; 64], [0; 4096]);
        let done = Clocked::Done {
            fired: true,
            displays: 1,
        };
        let clocked = second::clock(&design, &mut state, &mut fates, &mut displays);
        assert_eq!((clocked, displays[0]), (Ok(done), shown), "{state:?}");
    }
    assert!(crossed.iter().all(|times| *times >= 10), "{crossed:?}");
}

#[test]
fn states_have_the_rails() {
    let mut random = Random::new(24);
    let mut words = Vec::new();
    for _ in 0..200 {
        let mut state = states::state(&mut random, 5);
        states::overwrite(&mut random, &mut state);
        words.extend(state);
    }
    for rail in [i32::MIN, i32::MIN + 1, -1, 0, 1, i32::MAX - 1, i32::MAX] {
        assert!(words.contains(&rail), "{rail}");
    }
    assert_eq!(states::state(&mut random, 0), []);
}
