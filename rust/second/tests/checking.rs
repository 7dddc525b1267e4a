//! The check: order, kinds, and the calls that could be made.

mod common;
use common::assembler::*;
use common::*;
use second::check;

/// 0 when the design passes, else number and place.
fn checked(file: &File) -> (u8, usize) {
    match check(&reads_bytes(&file.bytes)) {
        Ok(()) => (0, 0),
        Err(failure) => (failure.number, failure.place),
    }
}

/// A rule in a UM of its own over an RG and a CR; it stands at 15.
fn rule(guard: Bytes, body: Bytes) -> File {
    File::new().rg(0).cr(2, 0).um().rl(guard, body).sc(&[0])
}

#[track_caller]
fn number(guard: Bytes, body: Bytes, expected: u8) {
    let place = if expected == 0 { 0 } else { 15 };
    assert_eq!(checked(&rule(guard, body)), (expected, place));
}

#[track_caller]
fn of_body(body: Bytes, expected: u8) {
    number(truth(true), body, expected);
}

#[test]
fn nothing_is_cut_short() {
    number(truth(false), local(0), 22);
    of_body(when(truth(false), local(0)), 22);
    of_body(choose(truth(true), void(), local(0)), 22);
    of_body(choose(truth(false), local(0), void()), 22);
    of_body(block(&[act(never()), act(local(0))]), 22);
    number(num(1), local(0), 21);
    of_body(when(num(1), local(0)), 21);
    of_body(choose(num(1), local(0), local(0)), 21);
}

#[test]
fn arms_are_both_walked_and_then_agree() {
    of_body(choose(truth(true), num(1), truth(true)), 21);
    of_body(choose(truth(true), num(1), local(0)), 22);
    of_body(choose(truth(true), void(), display(num(1))), 0);
    of_body(display(choose(truth(true), num(1), num(2))), 0);
    of_body(choose(truth(true), num(1), num(2)), 21);
    of_body(act_void(choose(truth(true), void(), num(2))), 21);
}

/// The value dropped, so that only its own walk matters.
fn act_void(value: Bytes) -> Bytes {
    block(&[act(value), act(void())])
}

#[test]
fn the_same_order_as_when_run() {
    of_body(act_void(plus(truth(true), local(0))), 22);
    of_body(act_void(plus(truth(true), num(1))), 21);
    of_body(act_void(call(2, 9, &[local(0)])), 23);
    of_body(act_void(call(0, 2, &[local(0)])), 24);
    of_body(act_void(call(1, 4, &[])), 24);
    of_body(act_void(call(1, 3, &[])), 25);
    number(call(0, 1, &[local(0)]), void(), 26);
    number(call(0, 1, &[]), void(), 25);
    number(display(local(0)), void(), 26);
    of_body(act_void(call(0, 1, &[truth(true)])), 21);
    of_body(block(&vec![bind(num(1)); 17]), 28);
    of_body(block(&vec![bind(num(1)); 16]), 0);
    let mut seventeenth = vec![bind(num(1)); 16];
    seventeenth.push(bind(local(16)));
    of_body(block(&seventeenth), 22);
    of_body(num(1), 21);
    of_body(void(), 0);
}

#[test]
fn kinds_of_arguments_after_all_of_them() {
    let file = |arguments: &[Bytes]| {
        File::new()
            .um()
            .md(V, NUM, &[NUM, BOOL], local(0))
            .um()
            .rl(truth(true), display(call(0, 0, arguments)))
            .sc(&[0])
    };
    // UM 0, MD 2 with 2 + 3 + 2 + 2 + 2, UM 13, RL 15.
    assert_eq!(checked(&file(&[num(1), truth(true)])), (0, 0));
    assert_eq!(checked(&file(&[truth(true), local(0)])), (22, 15));
    assert_eq!(checked(&file(&[truth(true), truth(true)])), (21, 15));
}

#[test]
fn a_method_keeps_its_declared_result() {
    let method =
        |kind, result, body| checked(&File::new().um().md(kind, result, &[], body).sc(&[]));
    assert_eq!(method(V, NUM, truth(true)), (21, 2));
    assert_eq!(method(V, BOOL, truth(true)), (0, 0));
    assert_eq!(method(A, VOID, num(1)), (21, 2));
    assert_eq!(method(AV, NUM, void()), (21, 2));
    assert_eq!(method(A, VOID, display(num(1))), (0, 0));
    assert_eq!(
        method(V, NUM, block(&[act(display(num(1))), act(num(1))])),
        (26, 2)
    );
    assert_eq!(
        method(AV, NUM, block(&[act(display(num(1))), act(num(1))])),
        (0, 0)
    );
}

#[test]
fn file_order() {
    // Rules and methods one among the other, unscheduled and never called.
    let bad = |number: u8| match number {
        21 => not(num(1)),
        22 => local(200),
        _ => call(255, 0, &[]),
    };
    let two =
        |first: File, second: fn(File, Bytes) -> File| checked(&second(first, bad(23)).sc(&[]));
    let as_rule: fn(File, Bytes) -> File = |file, body| file.rl(truth(true), body);
    let as_method: fn(File, Bytes) -> File = |file, body| file.md(V, NUM, &[], body);
    for first in [as_rule, as_method] {
        for second in [as_rule, as_method] {
            let file = first(File::new().um(), bad(22));
            assert_eq!(two(file, second), (22, 2));
            let file = first(File::new().um(), bad(21));
            assert_eq!(two(file, second), (21, 2));
        }
    }
}

/// A rule or method body that makes this many calls, 1 to 1024.
fn reads(count: usize) -> Bytes {
    let some = |count: usize| block(&vec![act(read_port(0, 0)); count]);
    let mut statements = vec![act(some(32)); count / 32];
    if !count.is_multiple_of(32) {
        statements.push(act(some(count % 32)));
    }
    statements.push(act(void()));
    block(&statements)
}

#[test]
fn sixty_four_calls_pass() {
    of_body(reads(64), 0);
    of_body(reads(65), 27);
    number(equal(read_port(0, 0), num(1)), reads(63), 0);
    number(equal(read_port(0, 0), num(1)), reads(64), 27);
    // The larger arm counts, whichever it is.
    let larger = |one, other| choose(equal(read_port(0, 0), num(1)), reads(one), reads(other));
    of_body(larger(63, 1), 0);
    of_body(larger(1, 63), 0);
    of_body(larger(64, 1), 27);
    of_body(larger(1, 64), 27);
    of_body(larger(40, 40), 0);
    // A display is a call, and its operand's calls count.
    of_body(block(&[act(reads(62)), act(display(read_port(0, 0)))]), 0);
    of_body(block(&[act(reads(63)), act(display(read_port(0, 0)))]), 27);
    of_body(block(&[act(reads(63)), act(display(num(0)))]), 0);
    of_body(block(&[act(reads(64)), act(display(num(0)))]), 27);
    let write = write_port(0, 0, read_port(0, 0));
    of_body(block(&[act(reads(62)), act(write.clone())]), 0);
    of_body(block(&[act(reads(63)), act(write)]), 27);
    of_body(when(equal(read_port(0, 0), num(1)), reads(63)), 0);
    of_body(when(equal(read_port(0, 0), num(1)), reads(64)), 27);
}

#[test]
fn number_27_waits_for_the_end() {
    let many = || reads(65);
    let base = || File::new().rg(0).um();
    let two = base().rl(truth(true), many()).rl(truth(true), local(0));
    let second = base().rl(truth(true), many()).bytes.len();
    assert_eq!(checked(&two.sc(&[])), (22, second));
    // A method over 64 fails only where a rule calls it: at the rule.
    let method = |kind| base().md(kind, VOID, &[], many()).um();
    assert_eq!(checked(&method(A).sc(&[])), (0, 0));
    let place = method(A).bytes.len();
    assert_eq!(
        checked(&method(A).rl(truth(true), call(1, 0, &[])).sc(&[])),
        (27, place)
    );
    let first = method(A).rl(truth(true), void());
    let place = first.bytes.len();
    assert_eq!(
        checked(&first.rl(truth(true), call(1, 0, &[])).sc(&[])),
        (27, place)
    );
}

/// `layers` UMs; each method joins two calls of the one below. The last UM
/// has a rule with `more` displays beside a call of the topmost method.
fn layered(layers: u8, join: fn(Bytes, Bytes) -> Bytes, more: usize) -> File {
    let mut file = File::new().um().md(V, NUM, &[], num(1));
    for layer in 1..layers {
        let below = call(layer - 1, 0, &[]);
        file = file.um().md(V, NUM, &[], join(below.clone(), below));
    }
    let mut statements = vec![act(call(layers - 1, 0, &[]))];
    statements.extend(vec![act(display(num(1))); more]);
    statements.push(act(void()));
    file.um().rl(truth(true), block(&statements)).sc(&[0])
}

#[test]
fn counts_saturate_and_are_made_once() {
    // 2^63 - 1 calls, and a few more, though 64 layers would be too many.
    for more in [0, 1, 2, 6] {
        assert_eq!(checked(&layered(63, plus, more)).0, 27, "{more}");
    }
    // 5 layers make 31 calls, 6 make 63.
    assert_eq!(checked(&layered(6, plus, 1)), (0, 0));
    assert_eq!(checked(&layered(6, plus, 2)).0, 27);
}

#[test]
fn a_call_in_both_arms_counts_once() {
    let either: fn(Bytes, Bytes) -> Bytes = |one, other| choose(truth(true), one, other);
    assert_eq!(checked(&layered(63, either, 0)), (0, 0));
    assert_eq!(checked(&layered(63, either, 1)), (0, 0));
    assert_eq!(checked(&layered(63, either, 2)).0, 27);
}
