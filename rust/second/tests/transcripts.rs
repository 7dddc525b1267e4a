//! The transcripts of document 000, section 8 ("000" below, with the line
//! numbers of its text). Guards that are numbers there compare with 1 here,
//! texts are not displayed, and a limit of 100 there is 101 clocks here.

mod common;
use common::assembler::*;
use common::*;
use second::{check, start, Clocked, Fate, Runner};

/// One clock as 000 tells it. Of each schedule entry: F fired, U unavail,
/// E inter-rule conflicts, n that it did not fire, without a reason.
struct Told {
    clock: u32,
    entries: &'static str,
    displays: &'static [i32],
}

fn told(clock: u32, entries: &'static str, displays: &'static [i32]) -> Told {
    Told {
        clock,
        entries,
        displays,
    }
}

/// What a program does, clock by clock, from its start values.
struct Done {
    fates: Vec<Vec<Fate>>,
    displays: Vec<Vec<i32>>,
    state: Vec<i32>,
}

fn done(file: &File, clocks: u32) -> Done {
    let design = reads_bytes(&file.bytes);
    assert_eq!(check(&design), Ok(()));
    let mut state = vec![0; design.instances.len()];
    start(&design, &mut state).expect("the right length");
    let mut runner = Runner::new(&design);
    let mut done = Done {
        fates: vec![],
        displays: vec![],
        state: vec![],
    };
    for _ in 0..clocks {
        let answer = runner.clock(&mut state);
        assert!(matches!(answer, Clocked::Done { .. }));
        done.fates.push(runner.fates.clone());
        done.displays.push(runner.displays.clone());
    }
    done.state = state;
    done
}

#[track_caller]
fn agrees(done: &Done, told: &Told) {
    let clock = told.clock as usize;
    let fates = &done.fates[clock];
    assert_eq!(fates.len(), told.entries.len());
    for (fate, letter) in fates.iter().zip(told.entries.chars()) {
        let same = match letter {
            'F' => *fate == Fate::Fired,
            'U' => *fate == Fate::Unavailable,
            'E' => *fate == Fate::Earlier,
            _ => *fate != Fate::Fired,
        };
        assert!(same, "clock {clock}: {fates:?}, told {}", told.entries);
    }
    assert_eq!(done.displays[clock], told.displays, "clock {clock}");
}

/// Registers 0 state, 1 x, 2 y, 3 busy; 4 gcd, 5 main (000: 953 to 1050).
/// Not in 01: greater, less or equal, not equal; so other operators stand
/// for them.
fn gcd() -> File {
    let (state, x, y, busy) = (0, 1, 2, 3);
    let read = |register| read_port(register, 0);
    let write = |register, value| act(write_port(register, 0, value));
    let is_busy = |number| equal(read(busy), num(number));
    let y_not_0 = not(equal(read(y), num(0)));
    let x_over_y = less(read(y), read(x));
    let swap_guard = and(and(x_over_y.clone(), is_busy(1)), y_not_0.clone());
    let subtract_guard = and(and(not(x_over_y), is_busy(1)), y_not_0);
    let swap = block(&[write(x, read(y)), write(y, read(x))]);
    let subtract = write_port(y, 0, minus(read(y), read(x)));
    let start = block(&[write(x, local(0)), write(y, local(1)), write(busy, num(1))]);
    let result = block(&[write(busy, num(0)), act(read(x))]);
    let has_result = and(is_busy(1), equal(read(y), num(0)));
    let init = block(&[act(call(4, 0, &[num(24), num(16)])), write(state, num(1))]);
    let finish = block(&[
        bind(call(4, 1, &[])),
        act(display(local(0))),
        write(state, num(2)),
    ]);
    File::new()
        .rg(0)
        .rg(0)
        .rg(0)
        .rg(0)
        .um()
        .rl(swap_guard, swap)
        .rl(subtract_guard, subtract)
        .md(A, VOID, &[NUM, NUM], when(is_busy(0), start))
        .md(AV, NUM, &[], when(has_result, result))
        .um()
        .rl(equal(read(state), num(0)), init)
        .rl(equal(read(state), num(1)), finish)
        // init, finish, swap, subtract (000: 923 to 927).
        .sc(&[2, 3, 0, 1])
}

#[test]
fn gcd_clocks() {
    let done = done(&gcd(), 8);
    // 000: 1120 to 1149. The other rules are "..." there; 930 says that
    // only one can fire in a clock.
    agrees(&done, &told(1, "nnFn", &[]));
    agrees(&done, &told(2, "nnnF", &[]));
    agrees(&done, &told(3, "nnFn", &[]));
    agrees(&done, &told(4, "nnnF", &[]));
    agrees(&done, &told(5, "nnnF", &[]));
    // 000: 1156 to 1166; "The GCD is " is a text.
    agrees(&done, &told(6, "nFnn", &[8]));
    // 000: 1174 to 1182.
    agrees(&done, &told(7, "UUUU", &[]));
    // 000: 1186 to 1194.
    assert_eq!(done.state[..4], [2, 8, 0, 0]);
}

/// 000: 1077 to 1111 has init fired and three inter-rule conflicts, FEEE.
/// In 01 unavailable goes before conflicts, and reads show what init wrote:
/// getResult's when and subtract's guard are false, so their letters are U.
/// swap's guard holds (24 is over 16), and it clashes as printed.
#[test]
fn gcd_clock_0_differs_in_why() {
    let done = done(&gcd(), 1);
    agrees(&done, &told(0, "Fnnn", &[]));
    agrees(&done, &told(0, "FUEU", &[]));
}

/// The values that 000 notes beside clocks 1 to 5 (1122 to 1148).
#[test]
fn gcd_values_of_x_and_y() {
    let after = [(2, 16, 24), (3, 16, 8), (4, 8, 16), (5, 8, 8), (6, 8, 0)];
    for (clocks, x, y) in after {
        assert_eq!(done(&gcd(), clocks).state[1..3], [x, y], "{clocks}");
    }
}

/// 000: 1171 to 1183, "no rules fire .. and stops".
#[test]
fn gcd_listed() {
    let text = listing(101, &gcd().bytes);
    let lines: Vec<&str> = text.lines().collect();
    assert_eq!(lines.len(), 9);
    assert_eq!(lines[6], "6 UFUU 8");
    assert_eq!(lines[7..], ["7 UUUU", "QUIET 7 2 8 0 0 - -"]);
}

/// The one-place queue between feed and drain: 0 x, 1 full, 2 data, 3 f,
/// 4 main (000: 1377 to 1388). `inward` is the port of enq, `outward` that
/// of the other methods (000: 1209 to 1254). 000's text of drain is damaged
/// (1290); the displays and 1396 tell what it does.
fn fifo(inward: u8, outward: u8, schedule: &[u8]) -> File {
    let (x, full, data, f) = (0, 1, 2, 3);
    let is_full = |port, number| equal(read_port(full, port), num(number));
    let enq = block(&[
        act(write_port(data, inward, local(0))),
        act(write_port(full, inward, num(1))),
    ]);
    let deq = write_port(full, outward, num(0));
    let feed = block(&[
        act(call(f, 0, &[read_port(x, 0)])),
        act(write_port(x, 0, plus(read_port(x, 0), num(1)))),
    ]);
    let drain = block(&[act(display(call(f, 2, &[]))), act(call(f, 3, &[]))]);
    File::new()
        .rg(0)
        .cr(2, 0)
        .cr(2, 0)
        .um()
        .md(A, VOID, &[NUM], when(is_full(inward, 0), enq))
        .md(V, NUM, &[], read_port(full, outward))
        .md(
            V,
            NUM,
            &[],
            when(is_full(outward, 1), read_port(data, outward)),
        )
        .md(A, VOID, &[], when(is_full(outward, 1), deq))
        .um()
        .rl(truth(true), feed)
        .rl(equal(call(f, 1, &[]), num(1)), drain)
        .sc(schedule)
}

const FEED: u8 = 0;
const DRAIN: u8 = 1;

fn pipeline_fifo(schedule: &[u8]) -> File {
    fifo(1, 0, schedule)
}

/// 000: 1505, "exactly the opposite".
fn bypass_fifo(schedule: &[u8]) -> File {
    fifo(0, 1, schedule)
}

#[test]
fn pipeline_fifo_schedule_1() {
    let done = done(&pipeline_fifo(&[DRAIN, FEED]), 101);
    // 000: 1322 to 1355.
    agrees(&done, &told(0, "UF", &[]));
    agrees(&done, &told(1, "FF", &[0]));
    agrees(&done, &told(2, "FF", &[1]));
    agrees(&done, &told(3, "FF", &[2]));
    // 000: 1365 to 1371.
    agrees(&done, &told(100, "FF", &[99]));
    // 000: 1360, "in each subsequent clock .. 0, 1, 2, ...".
    for clock in 1..=100 {
        assert_eq!(done.fates[clock], [Fate::Fired; 2]);
        assert_eq!(done.displays[clock], [clock as i32 - 1]);
    }
    // 000: 1377 to 1384.
    assert_eq!(done.state[..3], [101, 1, 100]);
}

#[test]
fn pipeline_fifo_schedule_1_listed() {
    let text = listing(101, &pipeline_fifo(&[DRAIN, FEED]).bytes);
    assert!(text.starts_with("0 UF\n1 FF 0\n2 FF 1\n3 FF 2\n"));
    // 000: 1373, "Cycle limit reached: 100", with the final system.
    assert!(text.ends_with("100 FF 99\nLIMIT 101 101 1 100 - -\n"));
}

#[test]
fn pipeline_fifo_schedule_2() {
    let done = done(&pipeline_fifo(&[FEED, DRAIN]), 101);
    // 000: 1396 tells clock 0 in words: an inter-rule conflict.
    agrees(&done, &told(0, "FE", &[]));
    // 000: 1399 to 1405.
    agrees(&done, &told(1, "UF", &[0]));
    // 000: 1411 to 1413; no reason is printed, 1417 says "just like".
    agrees(&done, &told(2, "FE", &[]));
    // 000: 1420 to 1452.
    agrees(&done, &told(3, "UF", &[1]));
    agrees(&done, &told(4, "Fn", &[]));
    agrees(&done, &told(5, "UF", &[2]));
    agrees(&done, &told(6, "Fn", &[]));
    // 000: 1461 to 1473.
    agrees(&done, &told(99, "UF", &[49]));
    agrees(&done, &told(100, "FE", &[]));
    // 000: 1480 to 1487.
    assert_eq!(done.state[..3], [51, 1, 50]);
}

/// 000: 1417, "this pattern repeating".
#[test]
fn pipeline_fifo_schedule_2_alternates() {
    let done = done(&pipeline_fifo(&[FEED, DRAIN]), 101);
    for clock in 0..101 {
        let (fates, displays) = match clock % 2 {
            0 => ([Fate::Fired, Fate::Earlier], vec![]),
            _ => ([Fate::Unavailable, Fate::Fired], vec![clock / 2]),
        };
        assert_eq!(done.fates[clock as usize], fates);
        assert_eq!(done.displays[clock as usize], displays);
    }
}

/// 000 prints no transcript of the BypassFIFO, only (1507): "With Sched 2,
/// both rules can fire on every clock".
#[test]
fn bypass_fifo_schedule_2() {
    let done = done(&bypass_fifo(&[FEED, DRAIN]), 101);
    for clock in 0..101 {
        assert_eq!(done.fates[clock], [Fate::Fired; 2]);
        // What feed puts in, drain takes out in the same clock.
        assert_eq!(done.displays[clock], [clock as i32]);
    }
    assert_eq!(done.state[..3], [101, 0, 100]);
}

/// 000: 1507, "with Sched 1 they alternate". In 01 that needs the calls of
/// the unavailable drain to be forgotten: its read by port 1 would hold back
/// feed's write by port 0, and no clock would ever fire.
#[test]
fn bypass_fifo_schedule_1() {
    let done = done(&bypass_fifo(&[DRAIN, FEED]), 101);
    for clock in 0..101 {
        let (fates, displays) = match clock % 2 {
            0 => ([Fate::Unavailable, Fate::Fired], vec![]),
            _ => ([Fate::Fired, Fate::Earlier], vec![clock / 2]),
        };
        assert_eq!(done.fates[clock as usize], fates);
        assert_eq!(done.displays[clock as usize], displays);
    }
    assert_eq!(done.state[..3], [51, 1, 50]);
}

/// drain's guard as 000 writes it (1285) is a number: stuck with 21, in the
/// clock and in the check.
#[test]
fn a_number_as_guard_is_21() {
    let file = File::new()
        .cr(2, 0)
        .um()
        .md(V, NUM, &[], read_port(0, 0))
        .um()
        .rl(call(1, 0, &[]), void())
        .sc(&[0]);
    lists(5, &file.bytes, &["0 S", "STUCK 0 0 21 0 - -"]);
    assert_eq!(
        check(&reads_bytes(&file.bytes)).map_err(|f| f.number),
        Err(21)
    );
}
