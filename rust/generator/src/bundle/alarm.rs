//! Document 002, section 6.1.

use super::expression::{
    act, and, block, choose, display, equal, less, local, minus, not, num, or, plus, truth, Method,
    Node, Register,
};
use super::text::{Kind, MethodKind, Text};

const ABOUT: &str = "\
Document 002, section 6.1: the Limits Alarm block, made of two Hysteresis
blocks. H is 100, L is 20 and EPS is 10; there is no division here, so EPS/2
is given. A flag q is 1 for true. Module main puts in a sample in each clock
and displays QH, QL and Q of the one before.";

const HIGH: i32 = 100;
const LOW: i32 = 20;
const HALF: i32 = 5;

/// Every row of the tables, with its limits.
const SAMPLES: [i32; 13] = [50, 100, 101, 100, 90, 89, 95, 30, 19, 20, 30, 31, 25];

pub fn limits_alarm() -> Text {
    let mut text = Text::new(ABOUT);
    let high = hysteresis(&mut text, "q_high", "high_alarm");
    let low = hysteresis(&mut text, "q_low", "low_alarm");
    let block = alarm(&mut text, &high, &low);
    text.module("signal");
    let one = [("n", Kind::Num)];
    let sample = text.method("sample", MethodKind::V, Kind::Num, &one, samples());
    let n = text.register("n", 0);
    text.module("main");
    let show = text.rule("show", truth(true), shown(&block));
    let put = put(&block, n, &sample);
    let put = text.rule("put", less(n.read(), num(SAMPLES.len() as i32)), put);
    text.schedule(&[show, put])
}

struct Hysteresis {
    set_inputs: Method,
    get_q: Method,
}

/// q <= (q && (xin2-eps <= xin1) && (xin1 <= xin2+eps)) || (xin1 > xin2+eps).
/// a <= b is written not (b < a), and a > b is b < a.
fn hysteresis(text: &mut Text, register: &'static str, module: &'static str) -> Hysteresis {
    let q = text.register(register, 0);
    text.module(module);
    let (xin1, xin2, eps) = (local(0, "xin1"), local(1, "xin2"), local(2, "eps"));
    let is_set = equal(q.read(), num(1));
    let under = less(xin1.clone(), minus(xin2.clone(), eps.clone()));
    let over = less(plus(xin2, eps), xin1);
    let within = and(not(under), not(over.clone()));
    let next = or(and(is_set.clone(), within), over);
    let inputs = [("xin1", Kind::Num), ("xin2", Kind::Num), ("eps", Kind::Num)];
    let body = q.write(as_number(next));
    Hysteresis {
        set_inputs: text.method("set_Inputs", MethodKind::A, Kind::Void, &inputs, body),
        get_q: text.method("get_q", MethodKind::V, Kind::Bool, &[], is_set),
    }
}

/// Registers and displays hold numbers: 1 for true.
fn as_number(truth: Node) -> Node {
    choose(truth, num(1), num(0))
}

struct Alarm {
    set_inputs: Method,
    get_qh: Method,
    get_ql: Method,
    get_q: Method,
}

/// The high block compares x with h - eps/2, the low one l + eps/2 with x.
fn alarm(text: &mut Text, high: &Hysteresis, low: &Hysteresis) -> Alarm {
    text.module("limits_alarm");
    let (x, h, l, half) = (
        local(0, "x"),
        local(1, "h"),
        local(2, "l"),
        local(3, "eps/2"),
    );
    let to_high = vec![x.clone(), minus(h, half.clone()), half.clone()];
    let to_low = vec![plus(l, half.clone()), x, half];
    let set = block(vec![
        act(high.set_inputs.call(to_high)),
        act(low.set_inputs.call(to_low)),
    ]);
    let inputs = ["x", "h", "l", "eps/2"].map(|name| (name, Kind::Num));
    let (qh, ql) = (high.get_q.call(vec![]), low.get_q.call(vec![]));
    let q = or(ql.clone(), qh.clone());
    Alarm {
        set_inputs: text.method("set_Inputs", MethodKind::A, Kind::Void, &inputs, set),
        get_qh: text.method("get_qh", MethodKind::V, Kind::Bool, &[], qh),
        get_ql: text.method("get_ql", MethodKind::V, Kind::Bool, &[], ql),
        get_q: text.method("get_q", MethodKind::V, Kind::Bool, &[], q),
    }
}

/// The n-th sample, as a chain of ifs.
fn samples() -> Node {
    let (last, before) = SAMPLES.split_last().expect("some samples");
    let numbered = before.iter().enumerate().rev();
    numbered.fold(num(*last), |rest, (n, sample)| {
        choose(equal(local(0, "n"), num(n as i32)), num(*sample), rest)
    })
}

fn shown(block_of: &Alarm) -> Node {
    let Alarm {
        get_qh,
        get_ql,
        get_q,
        ..
    } = block_of;
    let flags = [get_qh, get_ql, get_q];
    block(
        flags
            .map(|get| act(display(as_number(get.call(vec![])))))
            .into(),
    )
}

fn put(block_of: &Alarm, n: Register, sample: &Method) -> Node {
    let inputs = vec![sample.call(vec![n.read()]), num(HIGH), num(LOW), num(HALF)];
    block(vec![
        act(block_of.set_inputs.call(inputs)),
        act(n.write(plus(n.read(), num(1)))),
    ])
}
