//! One clock and a run: fates, buffers, refusals and endings.

mod common;
use common::assembler::*;
use common::*;
use second::{clock, read, run, start, Clocked, Ending, Reason, Refusal, Run};

fn refusal<T>(number: u8) -> Result<T, Refusal> {
    Err(Refusal { number, place: 0 })
}

/// Rules with these guards and bodies on a CR with 4 ports and 6, an RG
/// with 5, and a UM with one method of each sort.
fn rules(all: &[(Bytes, Bytes)]) -> Vec<u8> {
    let mut file = File::new()
        .cr(4, 6)
        .rg(5)
        .um()
        .md(V, NUM, &[], num(1))
        .md(V, NUM, &[NUM], local(0))
        .md(A, VOID, &[], void())
        .md(AV, NUM, &[], num(1))
        .um();
    for (guard, body) in all {
        file = file.rl(guard.clone(), body.clone());
    }
    let entries: Vec<u8> = (0..all.len() as u8).collect();
    file.sc(&entries).bytes
}

fn bodies(all: &[Bytes]) -> Vec<u8> {
    let all: Vec<_> = all.iter().map(|body| (truth(true), body.clone())).collect();
    rules(&all)
}

/// The letters of the first clock.
fn letters(file: &[u8]) -> String {
    let text = listing(1, file);
    text.split([' ', '\n'])
        .nth(1)
        .expect("a clock line")
        .to_string()
}

fn use_port(method: usize) -> Bytes {
    let method = method as u8;
    match method % 2 {
        0 => block(&[act(call(0, method, &[])), act(void())]),
        _ => call(0, method, &[num(1)]),
    }
}

/// The rows are write 0, read 1, .. as the document orders the words.
#[test]
fn inside_a_rule() {
    for first in 0..8 {
        for second in 0..8 {
            let body = block(&[act(use_port(first)), act(use_port(second))]);
            let (i, j) = (first / 2, second / 2);
            let expected = match (first % 2, second % 2) {
                (1, 0) if i < j => "A",
                (0, 1) if j < i => "A",
                (1, 1) if i != j => "A",
                (1, 1) => "H",
                _ => "F",
            };
            assert_eq!(letters(&bodies(&[body])), expected, "{first} {second}");
        }
    }
}

#[test]
fn earlier_against_later() {
    for first in 0..8 {
        for second in 0..8 {
            let file = bodies(&[use_port(first), use_port(second)]);
            let (i, j) = (first / 2, second / 2);
            let expected = match (first % 2, second % 2) {
                (1, 0) if j <= i => "FE",
                (1, 1) if j < i => "FE",
                (1, 1) if j == i => "FH",
                (0, 1) if j < i => "FE",
                _ => "FF",
            };
            assert_eq!(letters(&file), expected, "{first} {second}");
        }
    }
}

#[test]
fn calls_of_the_guard_take_part() {
    let reads_1 = equal(read_port(0, 1), num(6));
    let file = rules(&[(reads_1, write_port(0, 0, num(1)))]);
    assert_eq!(letters(&file), "A");
}

#[test]
fn hardware() {
    let twice = |part: Bytes| block(&[act(part.clone()), act(part), act(void())]);
    let once = |part: Bytes| block(&[act(part), act(void())]);
    let both = |part: Bytes| {
        let within = letters(&bodies(&[twice(part.clone())]));
        let across = letters(&bodies(&[once(part.clone()), once(part)]));
        (within, across)
    };
    let pair = |within: &str, across: &str| (within.to_string(), across.to_string());
    assert_eq!(both(call(2, 0, &[])), pair("F", "FF"));
    assert_eq!(both(call(2, 1, &[num(1)])), pair("H", "FH"));
    assert_eq!(both(call(2, 2, &[])), pair("H", "FH"));
    assert_eq!(both(call(2, 3, &[])), pair("H", "FH"));
    assert_eq!(both(read_port(0, 2)), pair("F", "FF"));
    assert_eq!(both(write_port(0, 2, num(1))), pair("H", "FH"));
    // Other methods, and other instances, do not clash.
    let two = block(&[act(call(2, 2, &[])), act(call(2, 3, &[])), act(void())]);
    assert_eq!(letters(&bodies(&[two])), "F");
    let two = block(&[act(write_port(0, 0, num(1))), act(write_port(1, 0, num(1)))]);
    assert_eq!(letters(&bodies(&[two])), "F");
}

#[test]
fn the_fates_are_tried_in_order() {
    let write = |port| act(write_port(0, port, num(1)));
    // Twice the same write, and a read inside: 2 goes before 4.
    let body = block(&[write(0), write(0), act(read_port(0, 1)), act(void())]);
    assert_eq!(letters(&bodies(&[body])), "A");
    // A clash with an earlier rule and one in hardware: 3 before 4.
    let later = block(&[act(call(2, 2, &[])), act(read_port(0, 0)), act(void())]);
    let earlier = block(&[act(call(2, 2, &[])), write(0)]);
    assert_eq!(letters(&bodies(&[earlier, later])), "FE");
    // Inside and earlier: 2 before 3. Unavailable before all.
    let inside = block(&[write(0), act(read_port(0, 1)), act(void())]);
    let file = bodies(&[write_port(0, 3, num(1)), inside.clone()]);
    assert_eq!(letters(&file), "FA");
    let unavailable = block(&[act(inside.clone()), act(never())]);
    assert_eq!(letters(&bodies(&[unavailable])), "U");
    // A rule that is stuck would have been held back; it is stuck.
    let stuck = block(&[act(inside), act(num(1))]);
    assert_eq!(letters(&bodies(&[stuck])), "S");
}

#[test]
fn only_calls_of_fired_rules_count() {
    let reads_2 = equal(read_port(0, 2), num(-1));
    let write = write_port(0, 0, num(1));
    let file = rules(&[(reads_2, void()), (truth(true), write.clone())]);
    assert_eq!(letters(&file), "UF");
    let inside = block(&[act(write.clone()), act(read_port(0, 2)), act(void())]);
    assert_eq!(letters(&bodies(&[inside, write])), "AF");
    let twice = block(&vec![act(write_port(1, 0, num(1))); 2]);
    let file = bodies(&[twice, write_port(1, 0, num(2)), use_port(0)]);
    assert_eq!(letters(&file), "HFF");
}

#[test]
fn each_rule_sees_what_fired_before_it() {
    let file = bodies(&[
        write_port(0, 0, plus(read_port(0, 0), num(1))),
        write_port(0, 1, plus(read_port(0, 1), num(10))),
        display(read_port(0, 2)),
    ]);
    lists(2, &file, &["0 FFF 17", "1 FFF 28", "LIMIT 2 28 5 - -"]);
}

/// Rule 0 fires with a write and displays, rule 1 is stuck, 2 is behind.
fn stuck_in_the_middle() -> Vec<u8> {
    let first = block(&[
        act(write_port(1, 0, num(50))),
        act(display(num(3))),
        act(display(num(4))),
    ]);
    let second = block(&[act(display(num(5))), act(local(9))]);
    let mut file = File::new().cr(4, 6).rg(5).um();
    for body in [display(num(6)), second, first] {
        file = file.rl(truth(true), body);
    }
    file.sc(&[2, 1, 0]).bytes
}

#[test]
fn a_stuck_clock_restores_the_state() {
    let design = read(&stuck_in_the_middle()).expect("a design");
    let mut state = [1, 2, 77];
    let mut fates = [9; 66];
    let mut displays = [-9; 4097];
    let answer = clock(&design, &mut state, &mut fates, &mut displays);
    let stuck = Clocked::Stuck {
        rule: 1,
        reason: Reason::NoSuchLocal,
        displays: 2,
    };
    assert_eq!(answer, Ok(stuck));
    assert_eq!(state, [1, 2, 77]);
    assert_eq!(fates[..4], [0, 5, 6, 9]);
    assert!(fates[3..].iter().all(|fate| *fate == 9));
    assert_eq!(displays[..3], [3, 4, -9]);
    assert!(displays[2..].iter().all(|display| *display == -9));
    let ending = Run {
        ending: Ending::Stuck {
            rule: 1,
            reason: Reason::NoSuchLocal,
        },
        count: 0,
    };
    assert_eq!(run(&design, &mut state, 7), Ok(ending));
    assert_eq!(state, [1, 2, 77]);
    let lines = ["0 FS- 3 4", "STUCK 0 1 22 6 5 -"];
    lists(7, &stuck_in_the_middle(), &lines);
}

#[test]
fn refusals_in_order_and_without_a_change() {
    let design = read(&hex(P10)).expect("a design");
    let cases = [
        (1, 63, 0, 10),
        (3, 64, 4096, 10),
        (0, 64, 4096, 10),
        (2, 63, 4095, 11),
        (2, 0, 4096, 11),
        (2, 64, 4095, 12),
        (2, 64, 0, 12),
    ];
    for (instances, fate_room, display_room, number) in cases {
        let mut state = vec![7; instances];
        let mut fates = vec![8; fate_room];
        let mut displays = vec![9; display_room];
        let answer = clock(&design, &mut state, &mut fates, &mut displays);
        assert_eq!(answer, refusal(number));
        assert!(state.iter().all(|entry| *entry == 7));
        assert!(fates.iter().all(|entry| *entry == 8));
        assert!(displays.iter().all(|entry| *entry == 9));
    }
    for length in [0, 1, 3, 64] {
        let mut state = vec![7; length];
        assert_eq!(start(&design, &mut state), refusal(10));
        // 10 comes before n = 0.
        assert_eq!(run(&design, &mut state, 0), refusal(10));
        assert!(state.iter().all(|entry| *entry == 7));
    }
}

#[test]
fn the_most_displays() {
    let entries: Vec<u8> = (0..64).collect();
    let mut displays = vec![0; 4096];
    let half = block(&vec![act(display(num(1))); 32]);
    let all = block(&vec![act(half); 2]);
    let mut file = File::new().um();
    for _ in 0..64 {
        file = file.rl(truth(true), all.clone());
    }
    let design = read(&file.sc(&entries).bytes).expect("a design");
    let answer = clock(&design, &mut [0], &mut [7; 64], &mut displays);
    let done = Clocked::Done {
        fired: true,
        displays: 4096,
    };
    assert_eq!(answer, Ok(done));
    assert!(displays.iter().all(|display| *display == 1));
}

fn ending(file: &[u8], n: u32) -> (Ending, u32) {
    let design = reads_bytes(file);
    let mut state = vec![0; design.instances.len()];
    start(&design, &mut state).expect("the right length");
    let run = run(&design, &mut state, n).expect("the right length");
    (run.ending, run.count)
}

#[test]
fn endings() {
    // Counts up while under 7, from 5: two clocks fire, the third is quiet.
    let guard = less(read_port(0, 0), num(7));
    let count_up = write_port(0, 0, plus(read_port(0, 0), num(1)));
    let file = File::new().rg(5).um().rl(guard, count_up).sc(&[0]).bytes;
    assert_eq!(ending(&file, 0), (Ending::Limit, 0));
    assert_eq!(ending(&file, 1), (Ending::Limit, 1));
    assert_eq!(ending(&file, 2), (Ending::Limit, 2));
    assert_eq!(ending(&file, 3), (Ending::Quiet, 2));
    assert_eq!(ending(&file, u32::MAX), (Ending::Quiet, 2));
    lists(3, &file, &["0 F", "1 F", "2 U", "QUIET 2 7 -"]);
    // The empty schedule, with and without a clock.
    let empty = File::new().rg(5).um().sc(&[]).bytes;
    assert_eq!(ending(&empty, 0), (Ending::Limit, 0));
    assert_eq!(ending(&empty, 1), (Ending::Quiet, 0));
    // Stuck in the n-th clock, after earlier ones that stay.
    let guard = less(read_port(0, 0), num(7));
    let wrong = choose(equal(read_port(0, 0), num(7)), local(1), void());
    let count_up = write_port(0, 0, plus(read_port(0, 0), num(1)));
    let file = File::new()
        .rg(5)
        .um()
        .rl(truth(true), wrong)
        .rl(guard, count_up);
    let file = file.sc(&[0, 1]).bytes;
    let stuck = Ending::Stuck {
        rule: 0,
        reason: Reason::NoSuchLocal,
    };
    assert_eq!(ending(&file, 2), (Ending::Limit, 2));
    assert_eq!(ending(&file, 3), (stuck, 2));
    assert_eq!(ending(&file, u32::MAX), (stuck, 2));
}
