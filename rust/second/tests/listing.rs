//! What the lister prints.

mod common;
use common::assembler::*;
use common::*;

fn printed(input: &[u8]) -> String {
    let mut out = Vec::new();
    second::lister(input, &mut out).expect("a list takes all");
    String::from_utf8(out).expect("plain letters")
}

#[test]
fn under_four_bytes() {
    for length in 0..4 {
        assert_eq!(printed(&vec![1; length]), "REFUSED 2 0\n");
    }
    assert_eq!(printed(&[1; 4]), "REFUSED 9 0\n");
}

#[test]
fn places_and_the_size_are_the_designs() {
    lists(1, &hex(RG), &["REFUSED 9 6"]);
    lists(1, &hex(&join(&[RG, "58"])), &["REFUSED 2 6"]);
    lists(1, &hex(&join(&[RG, "58 58"])), &["REFUSED 3 6"]);
    lists(0, &vec![0x58; 32_768], &["REFUSED 3 0"]);
    lists(0, &vec![0x58; 32_769], &["REFUSED 1 0"]);
}

#[test]
fn no_clocks_and_no_instances() {
    lists(0, &hex(P10), &["LIMIT 0 5 -"]);
    lists(0, &hex(SC), &["LIMIT 0"]);
    lists(1, &hex(SC), &["0 .", "QUIET 0"]);
    lists(u32::MAX, &hex(SC), &["0 .", "QUIET 0"]);
    lists(9, &hex(&join(&[RG, UM, SC])), &["0 .", "QUIET 0 5 -"]);
}

#[test]
fn the_count_is_unsigned_and_little_endian() {
    let text = listing(256, &hex(P10));
    assert_eq!(text.lines().count(), 257);
    assert!(text.ends_with("255 F\nLIMIT 256 261 -\n"));
    // As a signed number it would be negative; the design is quiet at once.
    let file = File::new().um().rl(truth(false), void()).sc(&[0]);
    lists(0x8000_0000, &file.bytes, &["0 U", "QUIET 0 -"]);
}

#[test]
fn every_letter_and_displays() {
    let write = |port| write_port(0, port, num(-8));
    let inside = block(&[act(write(0)), act(read_port(0, 1)), act(void())]);
    let hardware = block(&[act(write(1)), act(write(1))]);
    let show = block(&[
        act(display(num(i32::MIN))),
        act(display(num(0))),
        act(display(read_port(0, 0))),
    ]);
    let file = File::new()
        .cr(2, -7)
        .um()
        .rl(truth(true), show)
        .rl(truth(false), void())
        .rl(truth(true), inside)
        .rl(truth(true), write(0))
        .rl(truth(true), display(read_port(0, 0)))
        .rl(truth(true), hardware)
        .rl(truth(true), local(0))
        .rl(truth(true), void());
    let all = file.clone().sc(&[0, 1, 2, 3, 4, 5]).bytes;
    let shown = "-2147483648 0";
    let first = format!("0 FUAFEH {shown} -7");
    let second = format!("1 FUAFEH {shown} -8");
    lists(2, &all, &[&first, &second, "LIMIT 2 -8 -"]);
    let stuck = file.sc(&[0, 6, 7]).bytes;
    let line = format!("0 FS- {shown} -7");
    lists(2, &stuck, &[&line, "STUCK 0 6 22 -7 -"]);
}
