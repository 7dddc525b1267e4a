//! The designs under `designs/`, written down part by part. Their `.hex` and
//! `.bin` files are made from this; what they are expected to do is not: that
//! comes from the documents they are taken from.

mod alarm;
mod expression;
mod fifo;
mod gcd;
mod order;
mod p10;
mod queue;
pub mod text;
mod traffic;

use text::Text;

/// A bundled design with the name of its files.
pub struct Bundled {
    pub name: &'static str,
    pub text: Text,
}

pub fn bundle() -> Vec<Bundled> {
    let all = [
        ("p10", p10::p10()),
        ("gcd", gcd::gcd()),
        ("pipeline-fifo-1", fifo::pipeline_1()),
        ("pipeline-fifo-2", fifo::pipeline_2()),
        ("bypass-fifo-1", fifo::bypass_1()),
        ("bypass-fifo-2", fifo::bypass_2()),
        ("traffic-signals", traffic::signals()),
        ("traffic-requests", traffic::requests()),
        ("limits-alarm", alarm::limits_alarm()),
        ("order-abc", order::abc()),
        ("order-bac", order::bac()),
        ("queue-drain-first", queue::drain_first()),
        ("queue-feed-first", queue::feed_first()),
        ("queue-feed-first-through", queue::feed_first_through()),
    ];
    all.map(|(name, text)| Bundled { name, text }).into()
}
