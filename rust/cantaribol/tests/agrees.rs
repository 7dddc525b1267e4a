//! The crate's answers against the second program's, on random files: each
//! case of each enum, and the buffers.

use cantaribol::{Board, Counts, Design, Ending, Fate, Outcome};
use generator::nth_file;
use generator::running::nth_design;
use second::Runner;

/// Reading, counts and parts.
#[test]
fn reading_agrees() {
    let (mut read, mut refused) = (0, [0; 10]);
    for index in 0..4000 {
        let file = nth_file(5, index);
        match (Design::read(&file), second::read(&file)) {
            (Ok(design), Ok(other)) => {
                read += 1;
                same_counts(design.counts(), &other);
                same_parts(&design, &other);
                assert_eq!(design.schedule(), other.schedule);
            }
            (Err(refusal), Err(other)) => {
                refused[usize::from(other.number)] += 1;
                assert_eq!(refusal.number(), other.number);
                assert_eq!(refusal.place(), other.place);
            }
            (main, other) => panic!("{main:?} and {other:?} for {file:02X?}"),
        }
    }
    assert!(read > 1000);
    assert!(refused[1..].iter().all(|times| *times > 0), "{refused:?}");
}

fn same_counts(counts: Counts, other: &second::Design) {
    let Counts {
        instances,
        methods,
        rules,
        entries,
    } = counts;
    assert_eq!(instances, other.instances.len());
    assert_eq!(methods, other.method_count());
    assert_eq!(rules, other.rules.len());
    assert_eq!(entries, other.schedule.len());
}

fn same_parts(design: &Design, other: &second::Design) {
    for rule in 0..=design.counts().rules {
        let part = other.rule_part(rule as u64);
        assert_eq!(
            design.rule_range(rule),
            part.start..part.start + part.length
        );
        assert_eq!(design.rule_part(rule).len(), part.length);
    }
    for instance in 0..=design.counts().instances {
        for method in 0..4 {
            let part = other.method_part(instance as u64, method as u64);
            let range = design.method_range(instance, method);
            assert_eq!(range, part.start..part.start + part.length);
            assert_eq!(design.method_part(instance, method).len(), part.length);
        }
    }
}

#[test]
fn checks_agree() {
    let (mut passed, mut failed) = (0, [0; 8]);
    for index in 0..3000 {
        let file = nth_design(6, index);
        let (Ok(design), Ok(other)) = (Design::read(&file), second::read(&file)) else {
            continue;
        };
        match (design.check(), second::check(&other)) {
            (Ok(()), Ok(())) => passed += 1,
            (Err(failure), Err(other)) => {
                failed[usize::from(other.number) - 21] += 1;
                assert_eq!(failure.reason.number(), other.number);
                assert_eq!(failure.record, other.place);
                let words = format!("(number {}, place {})", other.number, other.place);
                assert!(failure.to_string().ends_with(&words));
            }
            (main, other) => panic!("{main:?} and {other:?} for {file:02X?}"),
        }
    }
    assert!(passed > 500, "{passed}");
    assert!(failed.iter().all(|times| *times > 0), "{failed:?}");
}

/// How often each case came up.
#[derive(Default, Debug)]
struct Seen {
    fates: [u32; 7],
    outcomes: [u32; 3],
    endings: [u32; 3],
}

fn same_outcome(outcome: Outcome, other: second::Clocked, seen: &mut Seen) {
    match (outcome, other) {
        (Outcome::Fired { displays }, second::Clocked::Done { fired, displays: d }) => {
            seen.outcomes[0] += 1;
            assert_eq!((true, displays), (fired, d));
        }
        (Outcome::Quiet, second::Clocked::Done { fired, displays }) => {
            seen.outcomes[1] += 1;
            assert_eq!((false, 0), (fired, displays));
        }
        (
            Outcome::Stuck {
                rule,
                reason,
                displays,
            },
            second::Clocked::Stuck {
                rule: r,
                reason: why,
                displays: d,
            },
        ) => {
            seen.outcomes[2] += 1;
            assert_eq!((rule, reason.number(), displays), (r, why.number(), d));
        }
        (main, other) => panic!("{main:?} and {other:?}"),
    }
}

fn same_clocks(board: &mut Board, other: &second::Design, seen: &mut Seen) {
    let mut state = vec![0; other.instances.len()];
    second::start(other, &mut state).expect("the right length");
    assert_eq!(board.state(), state);
    assert!(board.fates().is_empty() && board.displays().is_empty());
    let mut runner = Runner::new(other);
    for _ in 0..4 {
        same_outcome(board.clock(), runner.clock(&mut state), seen);
        assert_eq!(board.state(), state);
        assert_eq!(board.displays(), runner.displays);
        let expected: Vec<(u8, Fate)> = other
            .schedule
            .iter()
            .zip(&runner.fates)
            .map(|(rule, fate)| (*rule, Fate::of(*fate as u8).expect("a fate")))
            .collect();
        assert_eq!(board.fates(), expected);
        for (_, fate) in expected {
            seen.fates[usize::from(fate.number())] += 1;
        }
    }
}

fn same_run(board: &mut Board, other: &second::Design, n: u32, seen: &mut Seen) {
    let mut state = board.state().to_vec();
    let run = second::run(other, &mut state, n).expect("the right length");
    let ending = board.run(n);
    assert_eq!(ending.count(), run.count);
    assert_eq!(board.state(), state);
    assert!(board.fates().is_empty() && board.displays().is_empty());
    match (ending, run.ending) {
        (Ending::Limit { .. }, second::Ending::Limit) => seen.endings[0] += 1,
        (Ending::Quiet { .. }, second::Ending::Quiet) => seen.endings[1] += 1,
        (
            Ending::Stuck { rule, reason, .. },
            second::Ending::Stuck {
                rule: r,
                reason: why,
            },
        ) => {
            seen.endings[2] += 1;
            assert_eq!((rule, reason.number()), (r, why.number()));
        }
        (main, other) => panic!("{main:?} and {other:?}"),
    }
}

#[test]
fn clocks_and_runs_agree() {
    let mut seen = Seen::default();
    for index in 0..1500 {
        let file = nth_design(7, index);
        let (Ok(design), Ok(other)) = (Design::read(&file), second::read(&file)) else {
            continue;
        };
        let mut board = design.board();
        same_clocks(&mut board, &other, &mut seen);
        for n in [0, 1, 9] {
            same_run(&mut board, &other, n, &mut seen);
        }
    }
    let all = [&seen.fates[..], &seen.outcomes, &seen.endings].concat();
    assert!(all.iter().all(|times| *times > 20), "{seen:?}");
}
