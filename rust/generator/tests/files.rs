//! The files are what they are meant to be, by the second program.

mod common;
use common::depth_of;

use generator::design::{design, Size};
use generator::random::Random;
use generator::record::{Body, Plan, Record};
use generator::shape::{nest, PLACES};
use generator::spoil::spoil;
use generator::{large, nth_file, FAMILIES};
use second::{read, Instance};

fn number_of(file: &[u8]) -> u8 {
    match read(file) {
        Ok(_) => 0,
        Err(refusal) => refusal.number,
    }
}

#[test]
fn a_seed_gives_the_same_files() {
    let mut differing = 0;
    for index in 0..2000 {
        let file = nth_file(7, index);
        assert_eq!(file, nth_file(7, index));
        differing += usize::from(file != nth_file(8, index));
    }
    assert!(differing > 1900);
}

#[test]
fn p10_is_the_documents() {
    let rule = [2, 1, 10, 0, 1, 1, 4, 0, 10, 0, 0, 0, 1, 1, 0, 0, 0];
    let file = [b"RG\x05\0\0\0UMRL\x11\0", &rule[..], b"SC\x01\0"].concat();
    assert_eq!(generator::samples::p10().file(), file);
    assert_eq!(file.len(), 33);
}

#[test]
fn families_are_the_same_each_time() {
    for (name, family) in FAMILIES {
        assert!(family() == family(), "{name}");
    }
}

#[test]
fn designs_read() {
    let mut random = Random::new(5);
    for _ in 0..3000 {
        for size in [Size::tiny(), Size::small(), Size::middle()] {
            for slips in [0, 50, 300] {
                let file = design(&mut random, size.with_slips(slips)).file();
                assert_eq!(number_of(&file), 0, "{file:02X?}");
            }
        }
    }
}

#[test]
fn spoilt_designs_have_the_number() {
    let mut random = Random::new(6);
    for turn in 0..3000 {
        let plan = design(&mut random, Size::small());
        for number in 1..=9 {
            if number == 1 && turn % 30 > 0 {
                continue;
            }
            let file = spoil(&mut random, &plan, number);
            assert_eq!(number_of(&file), number, "{file:02X?}");
        }
    }
}

#[test]
fn bodies_of_each_length() {
    for length in (2..600).chain([5000, 30_000, 32_758]) {
        let body = Body::of_length(length);
        assert_eq!(body.bytes.len(), length);
        let record = Record::method(0, 1, &[], body);
        let plan = Plan::new(vec![Record::User, record, Record::schedule(vec![])]);
        assert_eq!(number_of(&plan.file()), u8::from(length > 32_756));
    }
}

#[test]
fn nests_of_each_depth() {
    let mut random = Random::new(8);
    for depth in 1..=16 {
        for _ in 0..50 {
            let body = nest(depth, &mut |_| random.below(PLACES));
            let record = Record::method(0, 1, &[], body);
            let plan = Plan::new(vec![Record::User, record, Record::schedule(vec![])]);
            let design = read(&plan.file()).expect("a design");
            let Instance::User { methods } = &design.instances[0] else {
                panic!("a UM");
            };
            assert_eq!(depth_of(&methods[0].body), depth);
        }
    }
}

#[test]
fn large_files_have_their_length() {
    let mut random = Random::new(9);
    for length in [1000, 5000, 32_767, 32_768] {
        let file = large::of_length(&mut random, length).file();
        assert_eq!((file.len(), number_of(&file)), (length, 0));
    }
    let file = large::full(32_768).file();
    let design = read(&file).expect("a design");
    assert_eq!(file.len(), 32_768);
    assert_eq!(design.instances.len(), 64);
    assert_eq!(design.method_count(), 128);
    assert_eq!((design.rules.len(), design.schedule.len()), (64, 64));
}

#[test]
fn every_number_is_reached() {
    let mut random_numbers = [0usize; 10];
    for index in 0..40_000 {
        random_numbers[usize::from(number_of(&nth_file(10, index)))] += 1;
    }
    let mut family_numbers = [0usize; 10];
    for (_, family) in FAMILIES {
        for file in family() {
            family_numbers[usize::from(number_of(&file))] += 1;
        }
    }
    for numbers in [random_numbers, family_numbers] {
        assert!(numbers.iter().all(|times| *times >= 50), "{numbers:?}");
    }
    assert!(random_numbers[0] >= 10_000, "{random_numbers:?}");
}
