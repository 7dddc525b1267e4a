//! A rule's or method's part of the file.

mod common;
use common::*;
use second::{method_part, rule_part};

#[test]
fn p10_rule() {
    let file = hex(P10);
    assert_eq!(rule_part(&file, 0), (12, 17));
    assert_eq!(rule_part(&file, 1), (0, 0));
    assert_eq!(rule_part(&file, u64::MAX), (0, 0));
    assert_eq!(rule_part(&file, 1 << 32), (0, 0));
    assert_eq!(rule_part(&file, 256), (0, 0));
}

#[test]
fn methods_are_numbered_within_their_instance() {
    let file = hex(&join(&[RG, UM, MD, RL, MD, CR, UM, RL, MD, SC]));
    // RG 0, UM 6, MD 8, RL 20, MD 28, CR 40, UM 47, RL 49, MD 57, SC 69.
    assert_eq!(method_part(&file, 1, 0), (15, 5));
    assert_eq!(method_part(&file, 1, 1), (35, 5));
    assert_eq!(method_part(&file, 3, 0), (64, 5));
    assert_eq!(rule_part(&file, 0), (24, 4));
    assert_eq!(rule_part(&file, 1), (53, 4));
    for (instance, method) in [(1, 2), (3, 1), (4, 0), (64, 0), (1, 256), (257, 0)] {
        assert_eq!(method_part(&file, instance, method), (0, 0));
    }
}

#[test]
fn a_method_with_parameters() {
    let head = "4D 44 01 00 03 01 02 01 02 00 03 00 ";
    let file = hex(&join(&[UM, head, SC]));
    assert_eq!(method_part(&file, 0, 0), (12, 2));
}

#[test]
fn a_register_has_none() {
    let file = hex(&join(&[RG, CR, UM, MD, SC]));
    for method in 0..8 {
        assert_eq!(method_part(&file, 0, method), (0, 0));
        assert_eq!(method_part(&file, 1, method), (0, 0));
    }
}

#[test]
fn a_refused_file_has_none() {
    let file = hex(&join(&[UM, MD, RL]));
    assert_eq!(rule_part(&file, 0), (0, 0));
    assert_eq!(method_part(&file, 0, 0), (0, 0));
    let file = hex(&join(&[UM, MD, RL, SC, "00"]));
    assert_eq!(rule_part(&file, 0), (0, 0));
    assert_eq!(method_part(&file, 0, 0), (0, 0));
}

#[test]
fn rules_absent_from_the_schedule_have_theirs() {
    let file = hex(&join(&[UM, RL, RL, "53 43 01 01"]));
    assert_eq!(rule_part(&file, 0), (6, 4));
    assert_eq!(rule_part(&file, 1), (14, 4));
}
