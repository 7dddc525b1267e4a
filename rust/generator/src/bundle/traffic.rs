//! Document 002, section 4.2.1.

use super::expression::{
    act, and, block, choose, equal, less, nothing, num, or, plus, truth, Method, Node, Register,
};
use super::text::{Kind, MethodKind, Text};

const SIGNALS: &str = "\
Document 002, section 4.2.1: TrafficSignals, the signals of a crossroads.
Lamps: 0 green, 1 yellow, 2 red. Nobody calls its methods. The rules of the
lamps go before tick, as they read t and tick writes it.";

const REQUESTS: &str = "\
Document 002, section 4.2.1: TrafficSignals, with a module main that asks for
crossings in clocks 50, 95 (both EW) and 100 (NS) and resets in clock 150.
Lamps: 0 green, 1 yellow, 2 red. reset goes before all, as 002 has it; the
requests go before tick, and after the rules of the lamps, which read t.";

struct Signals {
    ns: Register,
    ew: Register,
    t: Register,
}

struct Methods {
    reset: Method,
    request_ns: Method,
    request_ew: Method,
}

pub fn signals() -> Text {
    let mut text = Text::new(SIGNALS);
    let signals = Signals::new(&mut text);
    let tick = signals.tick(&mut text);
    let lamps = signals.lamps(&mut text);
    signals.actions(&mut text);
    signals.values(&mut text);
    text.schedule(&[&lamps[..], &[tick]].concat())
}

pub fn requests() -> Text {
    let mut text = Text::new(REQUESTS);
    let signals = Signals::new(&mut text);
    let tick = signals.tick(&mut text);
    let lamps = signals.lamps(&mut text);
    let methods = signals.actions(&mut text);
    signals.values(&mut text);
    let n = text.register("n", 0);
    text.module("main");
    let at = |clock| equal(n.read(), num(clock));
    let reset = text.rule("reset", at(150), methods.reset.call(vec![]));
    let request_ns = methods.request_ns.call(vec![]);
    let request_ns = text.rule("request_NS", at(100), request_ns);
    let request_ew = methods.request_ew.call(vec![]);
    let request_ew = text.rule("request_EW", or(at(50), at(95)), request_ew);
    let count = text.rule("count", truth(true), n.write(plus(n.read(), num(1))));
    let last = [request_ns, request_ew, tick, count];
    text.schedule(&[&[reset], &lamps[..], &last].concat())
}

impl Signals {
    fn new(text: &mut Text) -> Self {
        let signals = Signals {
            ns: text.register("carLamps_NS", 2),
            ew: text.register("carLamps_EW", 2),
            t: text.register("t", 0),
        };
        text.module("signals");
        signals
    }

    fn tick(&self, text: &mut Text) -> u8 {
        let t = self.t;
        let next = t.write(plus(t.read(), num(1)));
        let tick = choose(less(t.read(), num(300)), next, t.write(num(0)));
        text.rule("tick", truth(true), tick)
    }

    /// (lamps == from) && (t == time); lamps <= to.
    fn lamp(&self, text: &mut Text, name: &str, lamps: Register, change: [i32; 3]) -> u8 {
        let [from, time, to] = change;
        let guard = and(
            equal(lamps.read(), num(from)),
            equal(self.t.read(), num(time)),
        );
        text.rule(name, guard, lamps.write(num(to)))
    }

    fn lamps(&self, text: &mut Text) -> [u8; 6] {
        let Signals { ns, ew, .. } = *self;
        [
            self.lamp(text, "goYellow_NS", ns, [0, 140, 1]),
            self.lamp(text, "goRed_NS", ns, [1, 160, 2]),
            self.lamp(text, "goGreen_NS", ns, [2, 0, 0]),
            self.lamp(text, "goYellow_EW", ew, [0, 0, 1]),
            self.lamp(text, "goRed_EW", ew, [1, 20, 2]),
            self.lamp(text, "goGreen_EW", ew, [2, 160, 0]),
        ]
    }

    /// if (lamps == 0 && t < time) t <= time.
    fn request(&self, lamps: Register, time: i32) -> Node {
        let in_time = less(self.t.read(), num(time));
        let condition = and(equal(lamps.read(), num(0)), in_time);
        choose(condition, self.t.write(num(time)), nothing())
    }

    fn actions(&self, text: &mut Text) -> Methods {
        let Signals { ns, ew, t } = *self;
        let reset = block(vec![
            act(ns.write(num(2))),
            act(ew.write(num(2))),
            act(t.write(num(0))),
        ]);
        let mut action = |name, body| text.method(name, MethodKind::A, Kind::Void, &[], body);
        Methods {
            reset: action("reset", reset),
            request_ns: action("pedestrian_request_NS", self.request(ew, 280)),
            request_ew: action("pedestrian_request_EW", self.request(ns, 120)),
        }
    }

    fn values(&self, text: &mut Text) {
        let Signals { ns, ew, .. } = *self;
        let green = |lamps: Register| equal(lamps.read(), num(0));
        text.method("getlamp_NS", MethodKind::V, Kind::Num, &[], ns.read());
        text.method("getlamp_EW", MethodKind::V, Kind::Num, &[], ew.read());
        let mut walk = |name, body| text.method(name, MethodKind::V, Kind::Bool, &[], body);
        walk("getPedestrianLamp_NS", green(ns));
        walk("getPedestrianLamp_EW", green(ew));
    }
}
