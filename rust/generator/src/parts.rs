//! Expressions put together from their parts.

use crate::record::Body;

/// What `head` writes, and then the parts.
fn form(head: impl FnOnce(&mut Body), parts: &[Body]) -> Body {
    let mut body = Body::new();
    head(&mut body);
    for part in parts {
        body.append(part);
    }
    body
}

pub fn num(value: i32) -> Body {
    form(|body| body.number(value), &[])
}

pub fn truth(value: bool) -> Body {
    form(|body| body.bool(value), &[])
}

pub fn local(number: u8) -> Body {
    form(|body| body.local(number), &[])
}

/// The operator with this byte; `right` is left out of not, which is 6.
pub fn operator(byte: u8, left: Body, right: Body) -> Body {
    let operands = [left, right];
    let count = if byte == 6 { 1 } else { 2 };
    form(|body| body.operator(byte), &operands[..count])
}

pub fn plus(left: Body, right: Body) -> Body {
    operator(0, left, right)
}

pub fn minus(left: Body, right: Body) -> Body {
    operator(1, left, right)
}

pub fn equal(left: Body, right: Body) -> Body {
    operator(2, left, right)
}

pub fn less(left: Body, right: Body) -> Body {
    operator(3, left, right)
}

pub fn and(left: Body, right: Body) -> Body {
    operator(4, left, right)
}

pub fn not(only: Body) -> Body {
    operator(6, only, Body::new())
}

pub fn choose(condition: Body, then: Body, otherwise: Body) -> Body {
    form(Body::open_if, &[condition, then, otherwise])
}

pub fn when(guard: Body, body: Body) -> Body {
    form(Body::open_when, &[guard, body])
}

pub fn block(statements: &[Body]) -> Body {
    form(|body| body.block(statements.len()), statements)
}

/// A statement that binds the next local.
pub fn bind(value: Body) -> Body {
    form(Body::open_let, &[value])
}

/// A statement that only evaluates.
pub fn act(value: Body) -> Body {
    form(Body::open_do, &[value])
}

/// Each as a do, one after the other.
pub fn acts(values: &[Body]) -> Body {
    let statements: Vec<Body> = values.iter().cloned().map(act).collect();
    block(&statements)
}

pub fn call(instance: u8, method: u8, arguments: &[Body]) -> Body {
    form(
        |body| body.call(instance, method, arguments.len()),
        arguments,
    )
}

pub fn display(value: Body) -> Body {
    form(Body::display, &[value])
}

pub fn read(instance: u8, port: u8) -> Body {
    call(instance, 2 * port, &[])
}

pub fn write(instance: u8, port: u8, value: Body) -> Body {
    call(instance, 2 * port + 1, &[value])
}

/// A Void without any call.
pub fn void() -> Body {
    block(&[bind(num(0))])
}

/// Never available, and a Num by its kind.
pub fn never() -> Body {
    when(truth(false), num(0))
}

/// The value of `value` dropped: Void.
pub fn dropped(value: Body) -> Body {
    acts(&[value, void()])
}

/// This many times the same, as one Void; up to 1024 times.
pub fn times(count: usize, value: &Body) -> Body {
    let mut blocks = vec![acts(&vec![value.clone(); 32]); count / 32];
    if !count.is_multiple_of(32) {
        blocks.push(acts(&vec![value.clone(); count % 32]));
    }
    blocks.push(void());
    // One block more when the last one would not fit.
    match blocks.len() <= 32 {
        true => acts(&blocks),
        false => acts(&[acts(&blocks[..32]), blocks[32].clone()]),
    }
}

/// A rule's guard and body.
pub fn rule(guard: Body, body: Body) -> Body {
    let mut both = guard;
    both.append(&body);
    both
}

/// A rule whose guard holds.
pub fn always(body: Body) -> Body {
    rule(truth(true), body)
}
