//! Number 7: expressions, statements, depth, and bodies that do not fit.

mod common;
use common::*;
use second::{Expr, Instance, Operator, Statement};

/// The first method's body of a file made by `with_method`.
fn body_of(text: &str) -> Expr {
    let design = reads_bytes(&with_method(&hex(text)));
    match &design.instances[0] {
        Instance::User { methods } => methods[0].body.clone(),
        Instance::Register { .. } => panic!("a UM"),
    }
}

#[track_caller]
fn bad_body(text: &str) {
    refused_bytes(&with_method(&hex(text)), 7, 2);
    let mut rule = hex("02 01");
    rule.extend(hex(text));
    refused_bytes(&with_rule(&rule), 7, 2);
}

#[test]
fn each_form() {
    assert_eq!(body_of("01 FE FF FF FF"), Expr::Number(-2));
    assert_eq!(body_of("02 00"), Expr::Bool(false));
    assert_eq!(body_of("02 01"), Expr::Bool(true));
    assert_eq!(body_of("03 C8"), Expr::Local(200));
    let truth = || Box::new(Expr::Bool(true));
    let local = |number| Box::new(Expr::Local(number));
    let choice = Expr::If {
        condition: truth(),
        then: local(1),
        otherwise: local(2),
    };
    assert_eq!(body_of("05 02 01 03 01 03 02"), choice);
    let when = Expr::When {
        guard: truth(),
        body: local(3),
    };
    assert_eq!(body_of("06 02 01 03 03"), when);
    assert_eq!(body_of("0B 03 04"), Expr::Display(local(4)));
    let block = Expr::Block(vec![
        Statement::Let(Expr::Bool(true)),
        Statement::Do(Expr::Local(0)),
    ]);
    assert_eq!(body_of("07 02 08 02 01 09 03 00"), block);
    let call = Expr::Call {
        instance: 255,
        method: 254,
        arguments: vec![Expr::Local(7), Expr::Bool(false)],
    };
    assert_eq!(body_of("0A FF FE 02 03 07 02 00"), call);
}

#[test]
fn each_operator() {
    use Operator::*;
    let all = [Plus, Minus, Equal, Less, And, Or, Not];
    for (byte, operator) in all.into_iter().enumerate() {
        let mut text = format!("04 {byte:02X} 03 00");
        let mut operands = vec![Expr::Local(0)];
        if operator != Not {
            text.push_str("03 01");
            operands.push(Expr::Local(1));
        }
        assert_eq!(body_of(&text), Expr::Operator(operator, operands));
    }
    bad_body("04 07 03 00");
    bad_body("04 07 03 00 03 00");
    bad_body("04 06 03 00 03 00");
    bad_body("04 05 03 00");
}

#[test]
fn unknown_bytes_and_ranges() {
    for byte in (0..=255u8).filter(|b| !(1..=7).contains(b) && *b != 10 && *b != 11) {
        bad_body(&format!("{byte:02X}"));
        bad_body(&format!("{byte:02X} 02 01"));
        bad_body(&format!("0B {byte:02X} 02 01"));
    }
    for byte in (0..=255u8).filter(|b| *b != 8 && *b != 9) {
        bad_body(&format!("07 01 {byte:02X} 02 01"));
    }
    for byte in 2..=255u8 {
        bad_body(&format!("02 {byte:02X}"));
    }
    bad_body("07 00");
    bad_body("07 00 09 02 01");
    bad_body("0A 00 00 05 03 00 03 00 03 00 03 00 03 00");
}

#[test]
fn statements_begin_nothing_else() {
    bad_body("08 02 01");
    bad_body("09 02 01");
    bad_body("0B 08 02 01");
    bad_body("07 01 09 09 02 01");
    bad_body("07 01 02 01");
}

#[test]
fn block_and_argument_counts() {
    for count in [1usize, 2, 31, 32, 33, 34] {
        let statements = "09 02 01 ".repeat(count);
        let text = format!("07 {count:02X} {statements}");
        if count <= 32 {
            body_of(&text);
        } else {
            bad_body(&text);
        }
    }
    for count in 0..=4usize {
        body_of(&format!("0A 00 00 {count:02X} {}", "03 00 ".repeat(count)));
    }
}

#[test]
fn not_exactly_its_expressions() {
    bad_body("02 01 02 01");
    bad_body("02 01 00");
    bad_body("01 00 00 00");
    bad_body("02");
    bad_body("03");
    bad_body("04 00 02 01");
    bad_body("05 02 01 02 01");
    bad_body("06 02 01");
    bad_body("07 02 09 02 01");
    bad_body("0A 00");
    bad_body("0A 00 00");
    bad_body("0A 00 00 01");
    bad_body("0B");
}

#[test]
fn length_0_and_a_guard_only() {
    refused_bytes(&with_method(&[]), 7, 2);
    refused_bytes(&with_rule(&[]), 7, 2);
    refused_bytes(&with_rule(&[2, 1]), 7, 2);
    refused_bytes(&with_rule(&[2]), 7, 2);
    refused_bytes(&with_rule(&[2, 1, 2]), 7, 2);
    refused_bytes(&with_rule(&[2, 1, 2, 1, 2, 1]), 7, 2);
    refused("55 4D 52 4C 00 00", 7, 2);
}

#[test]
fn the_next_record_does_not_complete_a_body() {
    // The number's last two bytes would be the mark SC.
    refused("55 4D 4D 44 00 01 00 03 00 01 00 00 53 43 00", 7, 2);
    refused("55 4D 52 4C 03 00 02 01 03 53 43 00", 7, 2);
}

/// What stands around a part, for each place a part can have.
const AROUND: [(&str, &str); 20] = [
    ("04 00", "02 00"),
    ("04 01 02 00", ""),
    ("04 06", ""),
    ("05", "02 00 02 00"),
    ("05 02 00", "02 00"),
    ("05 02 00 02 00", ""),
    ("06", "02 00"),
    ("06 02 00", ""),
    ("07 01 08", ""),
    ("07 01 09", ""),
    ("07 03 08", "09 02 00 08 02 00"),
    ("07 03 08 02 00 09", "08 02 00"),
    ("07 03 08 02 00 09 02 00 08", ""),
    ("0A 00 00 01", ""),
    ("0A 00 00 04", "02 00 02 00 02 00"),
    ("0A 00 00 04 02 00", "02 00 02 00"),
    ("0A 00 00 04 02 00 02 00", "02 00"),
    ("0A 00 00 04 02 00 02 00 02 00", ""),
    ("0B", ""),
    ("04 03", "02 01"),
];

/// A bool with `wraps` parts around it, so it stands at depth wraps + 1.
fn nest(place: usize, wraps: usize, mixed: bool) -> Vec<u8> {
    let mut inner = hex("02 01");
    for wrap in 0..wraps {
        let at = if mixed { place + wrap } else { place };
        let (before, after) = AROUND[at % AROUND.len()];
        let mut outer = hex(before);
        outer.extend(inner);
        outer.extend(hex(after));
        inner = outer;
    }
    inner
}

#[test]
fn depth_16_is_read_and_17_refused() {
    for place in 0..AROUND.len() {
        for mixed in [false, true] {
            let (fits, over) = (nest(place, 15, mixed), nest(place, 16, mixed));
            reads_bytes(&with_method(&fits));
            refused_bytes(&with_method(&over), 7, 2);
            reads_bytes(&with_rule(&[&fits[..], &fits[..]].concat()));
            refused_bytes(&with_rule(&[&over[..], &[2, 1]].concat()), 7, 2);
            refused_bytes(&with_rule(&[&[2, 1], &over[..]].concat()), 7, 2);
        }
    }
}

#[test]
fn a_fault_in_the_head_comes_before_the_body() {
    // Kind and result disagree; the body is empty as well.
    refused("55 4D 4D 44 00 00 00 00 00", 6, 2);
    refused("55 4D 4D 44 00 01 01 03 00 00", 6, 2);
}
