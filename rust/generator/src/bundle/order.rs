//! Document 001, Annex A.

use super::expression::{
    act, block, choose, equal, local, nothing, num, plus, truth, when, Node, Register,
};
use super::text::{Kind, MethodKind, Text};

const ABC: &str = "\
Document 001, Annex A: module Order, with its rules in the order A, B, C.
That no rule may fire beside say is seen to by say's place: it goes first, and
each rule reads a register that say writes. Module main says 40 in clock 2.";

const BAC: &str = "\
Document 001, Annex A: module Order, with its rules in the order B, A, C.
That no rule may fire beside say is seen to by say's place: it goes first, and
each rule reads a register that say writes. Module main says 40 in clock 2.";

pub fn abc() -> Text {
    let (text, rules) = order(ABC);
    let Rules {
        a,
        b,
        c,
        request,
        count,
    } = rules;
    text.schedule(&[request, a, b, c, count])
}

pub fn bac() -> Text {
    let (text, rules) = order(BAC);
    let Rules {
        a,
        b,
        c,
        request,
        count,
    } = rules;
    text.schedule(&[request, b, a, c, count])
}

struct Rules {
    a: u8,
    b: u8,
    c: u8,
    request: u8,
    count: u8,
}

#[derive(Clone, Copy)]
struct Registers {
    running: Register,
    a: Register,
    out_a: Register,
    out_b: Register,
    offset: Register,
}

impl Registers {
    fn is_running(self, number: i32) -> Node {
        equal(self.running.read(), num(number))
    }

    fn say(self) -> Node {
        let say = block(vec![
            act(self.a.write(local(0, "va"))),
            act(self.offset.write(num(1))),
            act(self.running.write(num(1))),
        ]);
        when(self.is_running(0), say)
    }

    /// out = a + offset; and, where running is as given, a = next.
    fn summing(self, out: Register, running: i32, next: Node) -> Node {
        let sum = plus(self.a.read(), self.offset.read());
        let step = choose(self.is_running(running), self.a.write(next), nothing());
        block(vec![act(out.write(sum)), act(step)])
    }
}

/// All but the schedule. The registers start as at the reset of A.3.
fn order(about: &'static str) -> (Text, Rules) {
    let mut text = Text::new(about);
    let registers = Registers {
        running: text.register("running", 0),
        a: text.register("a", 0),
        out_a: text.register("outA", 0),
        out_b: text.register("outB", 0),
        offset: text.register("offset", 0),
    };
    let (out_a, out_b, offset) = (registers.out_a, registers.out_b, registers.offset);
    text.module("order");
    let one = [("va", Kind::Num)];
    let say = text.method("say", MethodKind::A, Kind::Void, &one, registers.say());
    let next = plus(registers.a.read(), num(1));
    let step = offset.write(plus(offset.read(), num(1)));
    let a = text.rule("A", truth(true), registers.summing(out_a, 1, next));
    let b = text.rule("B", truth(true), registers.summing(out_b, 0, num(1)));
    let c = text.rule("C", truth(true), step);
    let n = text.register("n", 0);
    text.module("main");
    let rules = Rules {
        a,
        b,
        c,
        request: text.rule("request", equal(n.read(), num(2)), say.call(vec![num(40)])),
        count: text.rule("count", truth(true), n.write(plus(n.read(), num(1)))),
    };
    (text, rules)
}
