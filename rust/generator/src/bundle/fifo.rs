//! Document 000, sections 8.2 and 8.3.

use super::expression::{
    act, block, display, equal, local, num, plus, truth, when, Method, Register,
};
use super::text::{Kind, MethodKind, Text};

const PIPELINE_1: &str = "\
Document 000, section 8.2: PipelineFIFO with schedule 1, drain before feed.
The output side uses port 0, the input side port 1. Its display of a text is
left out, and drain's guard compares with 1.";

const PIPELINE_2: &str = "\
Document 000, section 8.2: PipelineFIFO with schedule 2, feed before drain.
The output side uses port 0, the input side port 1. Its display of a text is
left out, and drain's guard compares with 1.";

const BYPASS_1: &str = "\
Document 000, section 8.3: BypassFIFO with schedule 1, drain before feed.
The input side uses port 0, the output side port 1. Its display of a text is
left out, and drain's guard compares with 1.";

const BYPASS_2: &str = "\
Document 000, section 8.3: BypassFIFO with schedule 2, feed before drain.
The input side uses port 0, the output side port 1. Its display of a text is
left out, and drain's guard compares with 1.";

pub fn pipeline_1() -> Text {
    let (text, feed, drain) = fifo(PIPELINE_1, 1, 0);
    text.schedule(&[drain, feed])
}

pub fn pipeline_2() -> Text {
    let (text, feed, drain) = fifo(PIPELINE_2, 1, 0);
    text.schedule(&[feed, drain])
}

pub fn bypass_1() -> Text {
    let (text, feed, drain) = fifo(BYPASS_1, 0, 1);
    text.schedule(&[drain, feed])
}

pub fn bypass_2() -> Text {
    let (text, feed, drain) = fifo(BYPASS_2, 0, 1);
    text.schedule(&[feed, drain])
}

struct Methods {
    enq: Method,
    not_empty: Method,
    first: Method,
    deq: Method,
}

/// enq goes by port `inward`, the other methods by port `outward`.
fn methods(
    text: &mut Text,
    (full, data): (Register, Register),
    inward: u8,
    outward: u8,
) -> Methods {
    let is_full = |port, number| equal(full.read_by(port), num(number));
    let enq = block(vec![
        act(data.write_by(inward, local(0, "x"))),
        act(full.write_by(inward, num(1))),
    ]);
    let enq = when(is_full(inward, 0), enq);
    let first = when(is_full(outward, 1), data.read_by(outward));
    let deq = when(is_full(outward, 1), full.write_by(outward, num(0)));
    let one = [("x", Kind::Num)];
    Methods {
        enq: text.method("enq", MethodKind::A, Kind::Void, &one, enq),
        not_empty: text.method(
            "notEmpty",
            MethodKind::V,
            Kind::Num,
            &[],
            full.read_by(outward),
        ),
        first: text.method("first", MethodKind::V, Kind::Num, &[], first),
        deq: text.method("deq", MethodKind::A, Kind::Void, &[], deq),
    }
}

/// All but the schedule, and the numbers of feed and drain.
fn fifo(about: &'static str, inward: u8, outward: u8) -> (Text, u8, u8) {
    let mut text = Text::new(about);
    let x = text.register("x", 0);
    let full = text.concurrent("full", 2, 0);
    let data = text.concurrent("data", 2, 0);
    text.module("f");
    let f = methods(&mut text, (full, data), inward, outward);
    text.module("main");
    let feed = block(vec![
        act(f.enq.call(vec![x.read()])),
        act(x.write(plus(x.read(), num(1)))),
    ]);
    let feed = text.rule("feed", truth(true), feed);
    let drain = block(vec![
        act(display(f.first.call(vec![]))),
        act(f.deq.call(vec![])),
    ]);
    let drain = text.rule("drain", equal(f.not_empty.call(vec![]), num(1)), drain);
    (text, feed, drain)
}
