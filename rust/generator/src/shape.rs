//! Bodies of a given depth or of a given length.

use crate::record::Body;

/// The places a part can have in its whole.
pub const PLACES: usize = 18;

/// A bool at depth `depth`, its wholes around it: `place(level)` says which
/// place the part below level `level` has in its whole.
pub fn nest(depth: usize, place: &mut dyn FnMut(usize) -> usize) -> Body {
    let mut out = Body::new();
    let mut after = Vec::new();
    for level in 1..depth {
        after.push(open(&mut out, place(level) % PLACES));
    }
    out.bool(true);
    for tail in after.iter().rev() {
        out.append(tail);
    }
    out
}

/// Write what stands before the part, and hand back what stands after it.
fn open(out: &mut Body, place: usize) -> Body {
    let mut after = Body::new();
    match place {
        0 => {
            out.operator(0);
            after.local(0);
        }
        1 => {
            out.operator(3);
            out.number(7);
        }
        2 => out.operator(6),
        3..=5 => split(out, &mut after, Body::open_if, place - 3, 3),
        6..=7 => split(out, &mut after, Body::open_when, place - 6, 2),
        8..=12 => open_block(out, &mut after, place - 8),
        13..=16 => {
            let before = place - 13;
            split(out, &mut after, |body| body.call(0, 1, 4), before, 4);
        }
        _ => out.display(),
    }
    after
}

/// `parts` parts, of which the wanted one is number `at`; the others are bools.
fn split(out: &mut Body, after: &mut Body, head: fn(&mut Body), at: usize, parts: usize) {
    head(out);
    for _ in 0..at {
        out.bool(true);
    }
    for _ in at + 1..parts {
        after.bool(false);
    }
}

/// A let or do alone, or one of three statements.
fn open_block(out: &mut Body, after: &mut Body, place: usize) {
    let (count, at) = [(1, 0), (1, 0), (3, 0), (3, 1), (3, 2)][place];
    let begin = |body: &mut Body, with_let: bool| {
        if with_let {
            body.open_let();
        } else {
            body.open_do();
        }
    };
    out.block(count);
    for _ in 0..at {
        begin(out, true);
        out.bool(true);
    }
    begin(out, place.is_multiple_of(2));
    for _ in at + 1..count {
        begin(after, false);
        after.bool(true);
    }
}

/// One expression of exactly `length` bytes, 2 or more.
pub fn fill(out: &mut Body, length: usize) {
    match length {
        0 | 1 => panic!("no expression is that short"),
        2 => out.bool(false),
        3 => {
            out.display();
            out.bool(true);
        }
        4 => out.local_not(),
        5 => out.number(0x5253_4D52),
        6..=63 => {
            let left = (length - 2) / 2;
            out.operator(0);
            fill(out, left);
            fill(out, length - 2 - left);
        }
        _ => fill_block(out, length),
    }
}

/// Blocks split by up to 32, so that the longest body is not too deep.
fn fill_block(out: &mut Body, length: usize) {
    let count = ((length - 2) / 8).min(32);
    let mut room = length - 2;
    out.block(count);
    for left in (1..=count).rev() {
        let size = room / left;
        room -= size;
        out.open_do();
        fill(out, size - 1);
    }
}

impl Body {
    fn local_not(&mut self) {
        self.operator(6);
        self.local(0);
    }

    /// One expression of exactly this length.
    pub fn of_length(length: usize) -> Body {
        let mut out = Body::new();
        fill(&mut out, length);
        out
    }

    /// A guard that holds and a body, together of exactly this length.
    pub fn rule_of_length(length: usize) -> Body {
        let mut out = Body::new();
        out.bool(true);
        fill(&mut out, length - 2);
        out
    }
}
