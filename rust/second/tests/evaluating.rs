//! Evaluating one rule: what it ends as, and which test goes first.

mod common;
use common::assembler::*;
use common::*;
use second::evaluate::{evaluate, Log};
use second::Halt;

/// 0 RG with 5, 1 CR with 4 ports and 6, 2 UM with methods, 3 UM with the
/// rule. Method 0 is V of a Num and a Bool, 1 is A of a Num, 2 is AV without
/// parameters, 3 is V without parameters, 4 gives a Bool though it says Num.
fn around(guard: Bytes, body: Bytes) -> Vec<u8> {
    File::new()
        .rg(5)
        .cr(4, 6)
        .um()
        .md(V, NUM, &[NUM, BOOL], choose(local(1), local(0), num(-1)))
        .md(A, VOID, &[NUM], write_port(0, 0, local(0)))
        .md(
            AV,
            NUM,
            &[],
            block(&[act(write_port(1, 0, num(9))), act(num(4))]),
        )
        .md(V, NUM, &[], read_port(1, 3))
        .md(V, NUM, &[], truth(true))
        .um()
        .rl(guard, body)
        .sc(&[0])
        .bytes
}

/// The displays when the rule has its value; else 1 or the stuck number.
fn ends(guard: Bytes, body: Bytes) -> Result<Vec<i32>, u8> {
    let design = reads_bytes(&around(guard, body));
    let mut log = Log::default();
    match evaluate(&design, &design.rules[0], &[5, 6, 0, 0], &mut log) {
        Ok(()) => Ok(log.displays),
        Err(Halt::Unavailable) => Err(1),
        Err(Halt::Stuck(reason)) => Err(reason.number()),
    }
}

/// A rule with this body, guard true.
fn does(body: Bytes) -> Result<Vec<i32>, u8> {
    ends(truth(true), body)
}

/// What is displayed for this value, when it is a Num.
fn shows(value: Bytes) -> Result<Vec<i32>, u8> {
    does(display(value))
}

const UNAVAILABLE: Result<Vec<i32>, u8> = Err(1);

/// A stuck expression with this number, in a place that is not pure.
fn stuck(number: u8) -> Bytes {
    match number {
        21 => not(num(1)),
        22 => local(77),
        23 => call(3, 0, &[]),
        24 => call(0, 2, &[]),
        25 => call(0, 0, &[num(1)]),
        26 => when(call(2, 2, &[]), num(1)),
        _ => block(&vec![bind(num(1)); 17]),
    }
}

#[test]
fn each_number_is_reached() {
    for number in [21, 22, 23, 24, 25, 26, 28] {
        assert_eq!(shows(stuck(number)), Err(number));
    }
    let displays = |count: usize| block(&vec![act(display(num(1))); count]);
    let displays = |count: usize| block(&[act(displays(32)), act(displays(count - 32))]);
    assert_eq!(does(displays(64)), Ok(vec![1; 64]));
    let one_more = block(&[act(displays(64)), act(display(num(1)))]);
    assert_eq!(does(one_more), Err(27));
}

#[test]
fn guards_and_conditions() {
    assert_eq!(ends(truth(false), stuck(22)), UNAVAILABLE);
    assert_eq!(ends(num(1), stuck(22)), Err(21));
    assert_eq!(ends(void(), never()), Err(21));
    assert_eq!(ends(never(), stuck(22)), UNAVAILABLE);
    assert_eq!(does(when(truth(false), stuck(22))), UNAVAILABLE);
    assert_eq!(does(when(num(0), stuck(22))), Err(21));
    // Only the arm taken; the condition's kind before it.
    assert_eq!(shows(choose(truth(true), num(1), stuck(22))), Ok(vec![1]));
    assert_eq!(shows(choose(truth(false), stuck(22), num(2))), Ok(vec![2]));
    assert_eq!(shows(choose(num(1), stuck(22), stuck(22))), Err(21));
}

#[test]
fn operators_evaluate_all_operands_first() {
    assert_eq!(shows(plus(truth(true), stuck(22))), Err(22));
    assert_eq!(shows(plus(truth(true), never())), UNAVAILABLE);
    assert_eq!(shows(plus(never(), stuck(22))), UNAVAILABLE);
    assert_eq!(shows(plus(stuck(22), never())), Err(22));
    let choice = |condition| shows(choose(condition, num(1), num(0)));
    assert_eq!(choice(and(truth(false), never())), UNAVAILABLE);
    assert_eq!(choice(or(truth(true), stuck(22))), Err(22));
    assert_eq!(choice(or(truth(true), num(1))), Err(21));
    assert_eq!(choice(equal(truth(true), truth(true))), Err(21));
    assert_eq!(choice(less(num(1), truth(true))), Err(21));
    assert_eq!(choice(not(num(0))), Err(21));
    assert_eq!(shows(minus(num(1), void())), Err(21));
}

#[test]
fn operators_of_two_truths() {
    for (left, right) in [(false, false), (false, true), (true, false), (true, true)] {
        let of = |make: fn(Bytes, Bytes) -> Bytes| {
            let condition = make(truth(left), truth(right));
            shows(choose(condition, num(1), num(0)))
        };
        assert_eq!(of(and), Ok(vec![i32::from(left && right)]));
        assert_eq!(of(or), Ok(vec![i32::from(left || right)]));
    }
}

#[test]
fn less_is_the_ordinary_order() {
    let pairs = [
        // A bare subtracter is wrong on these.
        (i32::MIN, 1, true),
        (i32::MIN, i32::MAX, true),
        (-2, i32::MAX, true),
        (i32::MAX, i32::MIN, false),
        (i32::MAX, -1, false),
        (0, i32::MIN, false),
        (1, i32::MIN, false),
        // And right on these.
        (i32::MIN, 0, true),
        (i32::MIN, -1, true),
        (-1, i32::MIN, false),
        (-1, i32::MAX, true),
        (i32::MAX, 0, false),
        (i32::MIN, i32::MIN, false),
        (i32::MAX, i32::MAX, false),
    ];
    for (left, right, holds) in pairs {
        let condition = less(num(left), num(right));
        let shown = shows(choose(condition, num(1), num(0)));
        assert_eq!(shown, Ok(vec![i32::from(holds)]), "{left} {right}");
    }
    // A difference still wraps, and need not be negative where less holds.
    let difference = less(minus(num(i32::MIN), num(1)), num(0));
    assert_eq!(shows(choose(difference, num(1), num(0))), Ok(vec![0]));
}

#[test]
fn locals_are_numbered_by_the_live_ones() {
    // A block inside numbers on, and is freed.
    let inner = block(&[bind(num(20)), act(plus(local(0), local(1)))]);
    let outer = block(&[
        bind(num(1)),
        bind(inner),
        act(display(local(1))),
        act(display(local(0))),
    ]);
    assert_eq!(does(outer), Ok(vec![21, 1]));
    // A let is not live in its own expression.
    assert_eq!(does(block(&[bind(local(0))])), Err(22));
    // After a block its lets are gone.
    let gone = block(&[act(block(&[bind(num(1))])), act(display(local(0)))]);
    assert_eq!(does(gone), Err(22));
    // The guard's lets are none of the body's.
    let guard = block(&[bind(num(1)), act(truth(true))]);
    assert_eq!(ends(guard, display(local(0))), Err(22));
    // Void may be bound, and is then no Num.
    let void_local = |tail: Bytes| block(&[bind(void()), act(tail)]);
    assert_eq!(does(void_local(local(0))), Ok(vec![]));
    assert_eq!(does(void_local(display(local(0)))), Err(21));
}

#[test]
fn sixteen_live_and_seventeen() {
    let lets = |count: usize| vec![bind(num(3)); count];
    assert_eq!(does(block(&lets(16))), Ok(vec![]));
    assert_eq!(does(block(&lets(17))), Err(28));
    // The last let of a block is bound as well; outer ones count.
    let mut outer = lets(15);
    outer.push(act(block(&lets(1))));
    outer.push(act(block(&lets(1))));
    assert_eq!(does(block(&outer)), Ok(vec![]));
    outer.push(bind(block(&lets(2))));
    assert_eq!(does(block(&outer)), Err(28));
    // The 17th's expression goes first.
    let with = |last: Bytes| {
        let mut statements = lets(16);
        statements.push(bind(last));
        does(block(&statements))
    };
    assert_eq!(with(num(1)), Err(28));
    assert_eq!(with(stuck(22)), Err(22));
    assert_eq!(with(never()), UNAVAILABLE);
    assert_eq!(with(display(num(1))), Err(28));
}

#[test]
fn the_callers_locals_are_not_the_callees() {
    let mut statements = vec![bind(num(3)); 16];
    let shown = call(2, 0, &[num(8), truth(true)]);
    statements.push(act(display(shown)));
    assert_eq!(does(block(&statements)), Ok(vec![8]));
}

#[test]
fn a_blocks_value_is_the_last_statements() {
    let dropped = |last| block(&[act(num(1)), act(truth(true)), act(void()), last]);
    assert_eq!(shows(dropped(act(num(7)))), Ok(vec![7]));
    assert_eq!(shows(dropped(bind(num(7)))), Err(21));
    assert_eq!(does(dropped(act(num(7)))), Err(21));
    assert_eq!(does(dropped(bind(num(7)))), Ok(vec![]));
}

#[test]
fn a_rules_value_must_be_void() {
    assert_eq!(does(num(1)), Err(21));
    assert_eq!(does(truth(true)), Err(21));
    assert_eq!(does(never()), UNAVAILABLE);
    assert_eq!(ends(truth(false), num(1)), UNAVAILABLE);
}

#[test]
fn the_order_of_a_calls_tests() {
    // 23 before 24, 24 before 25, 25 before 26, 26 before the arguments.
    assert_eq!(shows(call(3, 99, &[stuck(22)])), Err(23));
    assert_eq!(shows(call(200, 0, &[])), Err(23));
    assert_eq!(shows(call(2, 5, &[stuck(22)])), Err(24));
    assert_eq!(shows(call(1, 8, &[stuck(22)])), Err(24));
    assert_eq!(shows(call(2, 0, &[stuck(22)])), Err(25));
    assert_eq!(shows(call(2, 3, &[stuck(22)])), Err(25));
    assert_eq!(does(call(0, 1, &[])), Err(25));
    let pure = |value| ends(value, void());
    assert_eq!(pure(call(0, 1, &[])), Err(25));
    assert_eq!(pure(call(0, 1, &[stuck(22)])), Err(26));
    assert_eq!(pure(call(2, 1, &[stuck(22)])), Err(26));
    assert_eq!(pure(call(2, 2, &[num(1)])), Err(25));
    assert_eq!(pure(display(stuck(22))), Err(26));
    // All arguments, then all kinds.
    assert_eq!(shows(call(2, 0, &[truth(true), stuck(22)])), Err(22));
    assert_eq!(shows(call(2, 0, &[truth(true), never()])), UNAVAILABLE);
    assert_eq!(shows(call(2, 0, &[never(), stuck(22)])), UNAVAILABLE);
    assert_eq!(shows(call(2, 0, &[truth(true), num(1)])), Err(21));
    assert_eq!(does(call(0, 1, &[truth(true)])), Err(21));
    assert_eq!(shows(call(2, 0, &[num(3), truth(true)])), Ok(vec![3]));
    // A result of another kind than declared.
    assert_eq!(shows(call(2, 4, &[])), Err(21));
    assert_eq!(does(block(&[bind(call(2, 4, &[]))])), Err(21));
}

#[test]
fn pure_places() {
    let action = || block(&[act(display(num(1))), act(truth(true))]);
    let value = |condition| choose(condition, num(1), num(2));
    assert_eq!(ends(action(), void()), Err(26));
    assert_eq!(does(when(action(), void())), Err(26));
    assert_eq!(shows(value(action())), Err(26));
    // Parts of a pure place are pure: arms, blocks, arguments, operands.
    let in_guard = |part: Bytes| ends(equal(part, num(1)), void());
    assert_eq!(
        in_guard(choose(truth(true), call(2, 2, &[]), num(1))),
        Err(26)
    );
    assert_eq!(
        in_guard(block(&[bind(display(num(1))), act(num(1))])),
        Err(26)
    );
    let argument = [call(2, 2, &[]), truth(true)];
    assert_eq!(in_guard(call(2, 0, &argument)), Err(26));
    assert_eq!(in_guard(when(truth(true), call(2, 2, &[]))), Err(26));
    // In a rule's body the same parts are not pure.
    assert_eq!(
        shows(choose(truth(true), call(2, 2, &[]), num(1))),
        Ok(vec![4])
    );
    assert_eq!(shows(call(2, 0, &argument)), Ok(vec![4]));
    assert_eq!(shows(when(truth(true), call(2, 2, &[]))), Ok(vec![4]));
    assert_eq!(shows(plus(call(2, 2, &[]), num(1))), Ok(vec![5]));
}

#[test]
fn a_v_body_is_pure() {
    let file = File::new()
        .rg(0)
        .um()
        .md(
            V,
            NUM,
            &[],
            block(&[act(write_port(0, 0, num(1))), act(num(1))]),
        )
        .um()
        .rl(truth(true), display(call(1, 0, &[])))
        .sc(&[0]);
    lists(1, &file.bytes, &["0 S", "STUCK 0 0 26 0 - -"]);
}

#[test]
fn a_callee_may_call_below_its_own_instance_only() {
    let file = |callee: u8| {
        File::new()
            .um()
            .md(V, NUM, &[], num(1))
            .um()
            .md(V, NUM, &[], call(callee, 0, &[]))
            .um()
            .md(V, NUM, &[], num(2))
            .um()
            .rl(truth(true), display(call(1, 0, &[])))
            .sc(&[0])
            .bytes
    };
    lists(1, &file(0), &["0 F 1", "LIMIT 1 - - - -"]);
    lists(1, &file(1), &["0 S", "STUCK 0 0 23 - - - -"]);
    // The rule itself could call instance 2, its callee may not.
    lists(1, &file(2), &["0 S", "STUCK 0 0 23 - - - -"]);
}

#[test]
fn the_call_limit_is_tested_after_the_arguments() {
    let full = |last: Bytes| {
        let half = block(&vec![act(read_port(0, 0)); 32]);
        does(block(&[act(half.clone()), act(half), act(last)]))
    };
    assert_eq!(full(void()), Ok(vec![]));
    assert_eq!(full(read_port(0, 0)), Err(27));
    assert_eq!(full(display(num(1))), Err(27));
    assert_eq!(full(display(truth(true))), Err(21));
    assert_eq!(full(display(stuck(22))), Err(22));
    assert_eq!(full(display(never())), UNAVAILABLE);
    assert_eq!(full(write_port(0, 0, truth(true))), Err(21));
    assert_eq!(full(call(2, 0, &[num(1), num(1)])), Err(21));
    assert_eq!(full(call(2, 1, &[stuck(22)])), Err(22));
    // Its body, which would be 21, is not entered.
    assert_eq!(full(block(&[bind(call(2, 4, &[]))])), Err(27));
    assert_eq!(full(call(0, 0, &[num(1)])), Err(25));
}

#[test]
fn calls_of_guards_arguments_and_callees_count() {
    let reads = |count: usize| {
        let half = count / 2;
        let some = |count: usize| act(block(&vec![act(read_port(0, 0)); count]));
        block(&[some(half), some(count - half), act(truth(true))])
    };
    // Guard 60, then AV with its write is 2, its display 1: 63.
    assert_eq!(ends(reads(60), display(call(2, 2, &[]))), Ok(vec![4]));
    assert_eq!(ends(reads(61), display(call(2, 2, &[]))), Ok(vec![4]));
    assert_eq!(ends(reads(62), display(call(2, 2, &[]))), Err(27));
}

#[test]
fn reads_do_not_see_the_rules_own_writes() {
    let body = block(&[
        act(write_port(0, 0, num(70))),
        act(display(read_port(0, 0))),
    ]);
    assert_eq!(does(body), Ok(vec![5]));
}
