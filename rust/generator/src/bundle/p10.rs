//! Document 01, case P10.

use super::expression::{num, plus, truth};
use super::text::Text;

const ABOUT: &str = "Document 01, case P10: a rule that adds 1 to a register.";

pub fn p10() -> Text {
    let mut text = Text::new(ABOUT);
    let x = text.register("x", 5);
    text.module("main");
    let add = text.rule("add", truth(true), x.write(plus(x.read(), num(1))));
    text.schedule(&[add])
}
