//! A one-place queue of samples between feed and drain, in both orders.

use super::expression::{act, and, block, display, equal, less, num, plus};
use super::text::Text;

const DRAIN_FIRST: &str = "\
A one-place queue of samples, drain before feed. The queue starts with sample
0 in it; feed puts in samples 1 to 4. Drain uses port 0, feed port 1.
Drain displays the sample it takes out, feed 100 + the sample it puts in.";

const FEED_FIRST: &str = "\
A one-place queue of samples, feed before drain; all but the schedule is as in
queue-drain-first. The queue starts with sample 0 in it; feed puts in samples
1 to 4. Drain uses port 0, feed port 1.
Drain displays the sample it takes out, feed 100 + the sample it puts in.";

const FEED_FIRST_THROUGH: &str = "\
A one-place queue of samples, feed before drain, with the ports the other way
round: feed uses port 0, drain port 1. The queue starts empty; feed puts in
samples 1 to 4.
Drain displays the sample it takes out, feed 100 + the sample it puts in.";

pub fn drain_first() -> Text {
    let (text, feed, drain) = queue(DRAIN_FIRST, 1, 0, 1);
    text.schedule(&[drain, feed])
}

pub fn feed_first() -> Text {
    let (text, feed, drain) = queue(FEED_FIRST, 1, 0, 1);
    text.schedule(&[feed, drain])
}

pub fn feed_first_through() -> Text {
    let (text, feed, drain) = queue(FEED_FIRST_THROUGH, 0, 1, 0);
    text.schedule(&[feed, drain])
}

/// All but the schedule, and the numbers of feed and drain. `filled` is what
/// the queue starts with: 1 for a sample, 0 for none.
fn queue(about: &'static str, inward: u8, outward: u8, filled: i32) -> (Text, u8, u8) {
    let mut text = Text::new(about);
    let sample = text.register("sample", 1);
    let full = text.concurrent("full", 2, filled);
    let data = text.concurrent("data", 2, 0);
    text.module("main");
    let left = less(sample.read(), num(5));
    let empty = equal(full.read_by(inward), num(0));
    let feed = block(vec![
        act(data.write_by(inward, sample.read())),
        act(full.write_by(inward, num(1))),
        act(display(plus(num(100), sample.read()))),
        act(sample.write(plus(sample.read(), num(1)))),
    ]);
    let feed = text.rule("feed", and(left, empty), feed);
    let drain = block(vec![
        act(display(data.read_by(outward))),
        act(full.write_by(outward, num(0))),
    ]);
    let drain = text.rule("drain", equal(full.read_by(outward), num(1)), drain);
    (text, feed, drain)
}
