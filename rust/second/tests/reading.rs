//! Records, fields and their order, from document 01.

mod common;
use common::*;
use second::{Expr, Instance, Kind, MethodKind, Operator};

#[test]
fn p9_empty_file() {
    refused("", 9, 0);
}

#[test]
fn p10_design() {
    let design = reads(P10);
    let start = Instance::Register { ports: 1, start: 5 };
    assert_eq!(design.instances[0], start);
    assert_eq!(design.instances[1], Instance::User { methods: vec![] });
    assert_eq!(design.schedule, [0]);
    let rule = &design.rules[0];
    assert_eq!((rule.record, rule.instance), (8, 1));
    assert_eq!((rule.part.start, rule.part.length), (12, 17));
    assert_eq!(rule.guard, Expr::Bool(true));
    let read = Expr::Call {
        instance: 0,
        method: 0,
        arguments: vec![],
    };
    let sum = Expr::Operator(Operator::Plus, vec![read, Expr::Number(1)]);
    let write = Expr::Call {
        instance: 0,
        method: 1,
        arguments: vec![sum],
    };
    assert_eq!(rule.body, write);
}

#[test]
fn only_a_schedule() {
    let design = reads(SC);
    assert!(design.instances.is_empty() && design.schedule.is_empty());
}

#[test]
fn method_head() {
    let head = "4D 44 02 02 04 01 02 02 01 02 00 03 FF ";
    let design = reads(&join(&[UM, RG, UM, MD, head, SC]));
    let Instance::User { methods } = &design.instances[2] else {
        panic!("a UM");
    };
    let method = &methods[1];
    assert_eq!((method.kind, method.result), (MethodKind::AV, Kind::Bool));
    let kinds = [Kind::Num, Kind::Bool, Kind::Bool, Kind::Num];
    assert_eq!(method.parameters, kinds);
    assert_eq!(method.record, 2 + 6 + 2 + 12);
    assert_eq!(method.body, Expr::Local(255));
    assert_eq!(design.method_count(), 2);
}

#[test]
fn numbers_are_little_endian_and_signed() {
    let design = reads("52 47 FE FF FF FF 43 52 04 00 00 00 80 53 43 00");
    let first = Instance::Register {
        ports: 1,
        start: -2,
    };
    let second = Instance::Register {
        ports: 4,
        start: i32::MIN,
    };
    assert_eq!(design.instances, [first, second]);
}

#[test]
fn number_1_before_all() {
    let mut file = vec![0x58; 32_769];
    refused_bytes(&file, 1, 0);
    file.pop();
    refused_bytes(&file, 3, 0);
    // Bytes after SC are 4, unless they make the file too long.
    let mut file = hex(SC);
    file.resize(32_768, 0);
    refused_bytes(&file, 4, 3);
    file.push(0);
    refused_bytes(&file, 1, 0);
}

#[test]
fn number_2_for_the_mark() {
    refused("00", 2, 0);
    refused("52", 2, 0);
    refused(&join(&[RG, "58"]), 2, 6);
    refused(&join(&[RG, UM, "53"]), 2, 8);
}

#[test]
fn number_2_for_fields() {
    refused("52 47", 2, 0);
    refused("52 47 00 00 00", 2, 0);
    refused("43 52", 2, 0);
    refused("43 52 04", 2, 0);
    refused("43 52 04 00 00 00", 2, 0);
    refused("53 43", 2, 0);
    refused("55 4D 52 4C", 2, 2);
    refused("55 4D 52 4C 02", 2, 2);
    refused("55 4D 4D 44", 2, 2);
    refused("55 4D 4D 44 00", 2, 2);
    refused("55 4D 4D 44 00 01", 2, 2);
    refused("55 4D 4D 44 00 01 01", 2, 2);
    refused("55 4D 4D 44 00 01 02 01", 2, 2);
    refused("55 4D 4D 44 00 01 01 01 05", 2, 2);
}

#[test]
fn number_2_for_a_body_past_the_file() {
    // Whatever the bytes that are there: here an unknown byte.
    refused("55 4D 52 4C 02 00 FF", 2, 2);
    refused("55 4D 52 4C FF FF 02 01 02 01 53 43 00", 2, 2);
    refused("55 4D 4D 44 00 01 00 03 00 02 02", 2, 2);
    refused("55 4D 4D 44 00 01 00 01 00", 2, 2);
}

#[test]
fn number_3() {
    refused("00 00", 3, 0);
    refused("47 52 00 00 00 00", 3, 0);
    refused("72 67 00 00 00 00", 3, 0);
    refused("52 44", 3, 0);
    refused(&join(&[RG, "53 4C"]), 3, 6);
    refused(&join(&[RG, "FF FF FF"]), 3, 6);
}

#[test]
fn number_4_under_no_user_instance() {
    refused(MD, 4, 0);
    refused(RL, 4, 0);
    refused("4D 44", 4, 0);
    refused("52 4C", 4, 0);
    refused(&join(&[RG, MD]), 4, 6);
    refused(&join(&[UM, CR, RL, SC]), 4, 9);
    // A bad kind byte comes after 4.
    refused(&join(&[RG, "4D 44 09"]), 4, 6);
}

#[test]
fn number_4_after_the_schedule() {
    refused(&join(&[SC, "00"]), 4, 3);
    refused(&join(&[SC, "52"]), 4, 3);
    refused(&join(&[SC, SC]), 4, 3);
    refused(&join(&[SC, RG]), 4, 3);
    refused(&join(&[SC, "FF FF"]), 4, 3);
    refused(&join(&[UM, RL, "53 43 01 00", "00"]), 4, 14);
}

#[test]
fn number_5_instances() {
    let full = UM.repeat(64);
    reads(&join(&[&full, SC]));
    refused(&join(&[&full, UM, SC]), 5, 128);
    refused(&join(&[&full, "43 52 09"]), 5, 128);
    refused(&join(&[&full, "43 52"]), 5, 128);
    refused(&join(&[&full, "52 47"]), 5, 128);
    refused(&join(&[&full, "43"]), 2, 128);
    refused(&join(&[&full, "43 43"]), 3, 128);
    let registers = RG.repeat(64);
    reads(&join(&[&registers, SC]));
    refused(&join(&[&registers, CR, SC]), 5, 384);
}

#[test]
fn number_5_methods_through_the_whole_file() {
    let full = join(&[UM, &MD.repeat(100), UM, &MD.repeat(28)]);
    let length = hex(&full).len();
    reads(&join(&[&full, SC]));
    refused(&join(&[&full, MD, SC]), 5, length);
    refused(&join(&[&full, "4D 44"]), 5, length);
    refused(&join(&[&full, "4D 44 09"]), 5, length);
    refused(&join(&[&full, UM, MD, SC]), 5, length + 2);
    refused(&join(&[&full, RG, MD, SC]), 4, length + 6);
    reads(&join(&[&full, RL, SC]));
}

#[test]
fn number_5_rules() {
    let full = join(&[UM, &RL.repeat(40), UM, &RL.repeat(24)]);
    let length = hex(&full).len();
    reads(&join(&[&full, SC]));
    refused(&join(&[&full, RL, SC]), 5, length);
    refused(&join(&[&full, "52 4C"]), 5, length);
    refused(&join(&[&full, "52 4C 00 00", SC]), 5, length);
    refused(&join(&[&full, RG, "52 4C"]), 4, length + 6);
    reads(&join(&[&full, MD, SC]));
}

#[test]
fn number_6_ports() {
    refused("43 52 09", 6, 0);
    refused("43 52 00 05 00 00 00", 6, 0);
    refused("43 52 05 05 00 00 00 53 43 00", 6, 0);
    refused(&join(&[RG, "43 52 FF"]), 6, 6);
    for ports in ["01", "02", "03", "04"] {
        reads(&join(&["43 52", ports, "00 00 00 00", SC]));
    }
}

#[test]
fn number_6_kind_and_result() {
    refused("55 4D 4D 44 03", 6, 2);
    refused("55 4D 4D 44 FF", 6, 2);
    refused("55 4D 4D 44 00 00", 6, 2);
    refused("55 4D 4D 44 02 00", 6, 2);
    refused("55 4D 4D 44 01 01", 6, 2);
    refused("55 4D 4D 44 01 02", 6, 2);
    refused("55 4D 4D 44 00 03", 6, 2);
    refused("55 4D 4D 44 01 03", 6, 2);
    let tail = "00 02 00 03 00 ";
    for head in ["00 01", "00 02", "01 00", "02 01", "02 02"] {
        reads(&join(&["55 4D 4D 44", head, tail, SC]));
    }
}

#[test]
fn number_6_parameters() {
    refused("55 4D 4D 44 00 01 05", 6, 2);
    refused("55 4D 4D 44 00 01 01 00", 6, 2);
    refused("55 4D 4D 44 00 01 02 03", 6, 2);
    refused("55 4D 4D 44 00 01 02 01 00", 6, 2);
    refused("55 4D 4D 44 00 01 04 01 02 02 FF", 6, 2);
    // The head goes before the body: 6, though the body runs past the file.
    refused("55 4D 4D 44 00 01 01 00 FF FF", 6, 2);
}

#[test]
fn number_6_schedule_count() {
    refused("53 43 41", 6, 0);
    refused("53 43 FF 00", 6, 0);
    refused(&join(&[UM, RL, "53 43 41 00 00"]), 6, 10);
}

#[test]
fn number_8() {
    refused("53 43 01 00", 8, 0);
    refused(&join(&[UM, RL, "53 43 01 01"]), 8, 10);
    refused(&join(&[UM, RL, "53 43 02 00 00"]), 8, 10);
    refused(&join(&[UM, RL, "53 43 03 00 00"]), 8, 10);
    refused(&join(&[UM, RL, "53 43 03 00 FF"]), 8, 10);
    refused(&join(&[UM, RL, RL, "53 43 03 01 00 01"]), 8, 18);
    refused(&join(&[UM, RL, "53 43 03 00"]), 2, 10);
    refused(&join(&[UM, RL, "53 43 01"]), 2, 10);
    let design = reads(&join(&[UM, RL, RL, RL, "53 43 02 02 00"]));
    assert_eq!(design.schedule, [2, 0]);
}

#[test]
fn schedule_of_64() {
    let rules = join(&[UM, &RL.repeat(64)]);
    let mut file = hex(&rules);
    file.extend(hex("53 43 40"));
    file.extend((0..64).rev());
    assert_eq!(reads_bytes(&file).schedule.len(), 64);
    let last = file.len() - 1;
    file[last] = 64;
    refused_bytes(&file, 8, 2 + 64 * 8);
    file[last] = 63;
    refused_bytes(&file, 8, 2 + 64 * 8);
    file.pop();
    refused_bytes(&file, 2, 2 + 64 * 8);
}

#[test]
fn number_9() {
    refused(RG, 9, 6);
    refused(&join(&[RG, UM]), 9, 8);
    refused(&join(&[UM, RL, MD]), 9, 22);
}

#[test]
fn first_faulty_record_decides() {
    refused(&join(&["43 52 09 00 00 00 00", "58 58"]), 6, 0);
    refused(&join(&["58 58", "43 52 09"]), 3, 0);
    refused(&join(&[UM, "52 4C 00 00", "53 43 41"]), 7, 2);
    refused(&join(&[UM, RL, "53 43 01 07", "00"]), 8, 10);
}

#[test]
fn truncation_of_p10() {
    let whole = hex(P10);
    for length in 0..whole.len() {
        let (number, place) = match length {
            0 | 6 | 8 | 29 => (9, length),
            1..=5 => (2, 0),
            7 => (2, 6),
            9..=28 => (2, 8),
            _ => (2, 29),
        };
        refused_bytes(&whole[..length], number, place);
    }
}

#[test]
fn largest_file() {
    // 63 rules of 511 bytes, then one that fills up to the limit.
    let mut file = hex("55 4D");
    for rule in 0..64 {
        let length = if rule < 63 {
            511
        } else {
            32_768 - 6 - 63 * 515 - 4
        };
        file.extend(hex("52 4C"));
        file.extend((length as u16).to_le_bytes());
        file.extend(displays(length));
    }
    file.extend(hex("53 43 01 3F"));
    assert_eq!(file.len(), 32_768);
    assert_eq!(reads_bytes(&file).rules.len(), 64);
    file.truncate(32_764);
    refused_bytes(&file, 9, 32_764);
}

/// Guard and body of exactly this many bytes.
fn displays(length: usize) -> Vec<u8> {
    let mut bytes = vec![2, 1];
    let mut room = length - 2;
    // Nested blocks of two would go too deep; two levels are enough here.
    let statement = |out: &mut Vec<u8>, size: usize| {
        out.push(9);
        out.extend(std::iter::repeat_n(0x0B, size - 3));
        out.extend([2, 0]);
    };
    bytes.extend([7, 32]);
    room -= 2;
    for left in (1..=32).rev() {
        let size = room / left;
        room -= size;
        statement(&mut bytes, size);
    }
    bytes
}
