//! Document 000, section 8.1.

use super::expression::{
    act, and, bind, block, display, equal, less, local, minus, not, num, when, Method, Node,
    Register,
};
use super::text::{Kind, MethodKind, Text};

const ABOUT: &str = "\
Document 000, section 8.1: the greatest common divisor of 24 and 16.
Instances are numbered as in its elaborated program. Its display of a text is
left out. x > y is written y < x, and x <= y is not (y < x).";

struct Registers {
    x: Register,
    y: Register,
    busy: Register,
}

impl Registers {
    fn is_busy(&self, number: i32) -> Node {
        equal(self.busy.read(), num(number))
    }

    /// And(And(order, busy == 1), y != 0)
    fn guard(&self, order: Node) -> Node {
        let y_not_0 = not(equal(self.y.read(), num(0)));
        and(and(order, self.is_busy(1)), y_not_0)
    }

    /// swap and subtract.
    fn rules(&self, text: &mut Text) -> (u8, u8) {
        let Registers { x, y, .. } = *self;
        let x_over_y = less(y.read(), x.read());
        let swap = block(vec![act(x.write(y.read())), act(y.write(x.read()))]);
        let swap = text.rule("swap", self.guard(x_over_y.clone()), swap);
        let subtract = block(vec![act(y.write(minus(y.read(), x.read())))]);
        let subtract = text.rule("subtract", self.guard(not(x_over_y)), subtract);
        (swap, subtract)
    }

    /// start and getResult.
    fn methods(&self, text: &mut Text) -> (Method, Method) {
        let Registers { x, y, busy } = *self;
        let start = block(vec![
            act(x.write(local(0, "num1"))),
            act(y.write(local(1, "num2"))),
            act(busy.write(num(1))),
        ]);
        let start = when(self.is_busy(0), start);
        let two = [("num1", Kind::Num), ("num2", Kind::Num)];
        let start = text.method("start", MethodKind::A, Kind::Void, &two, start);
        let done = and(self.is_busy(1), equal(y.read(), num(0)));
        let result = block(vec![act(busy.write(num(0))), act(x.read())]);
        let result = when(done, result);
        let result = text.method("getResult", MethodKind::AV, Kind::Num, &[], result);
        (start, result)
    }
}

pub fn gcd() -> Text {
    let mut text = Text::new(ABOUT);
    let state = text.register("state", 0);
    let registers = Registers {
        x: text.register("x", 0),
        y: text.register("y", 0),
        busy: text.register("busy", 0),
    };
    text.module("gcd");
    let (swap, subtract) = registers.rules(&mut text);
    let (start, result) = registers.methods(&mut text);
    text.module("main");
    let init = block(vec![
        act(start.call(vec![num(24), num(16)])),
        act(state.write(num(1))),
    ]);
    let init = text.rule("init", equal(state.read(), num(0)), init);
    let finish = block(vec![
        bind("z", result.call(vec![])),
        act(display(local(0, "z"))),
        act(state.write(num(2))),
    ]);
    let finish = text.rule("finish", equal(state.read(), num(1)), finish);
    text.schedule(&[init, finish, swap, subtract])
}
