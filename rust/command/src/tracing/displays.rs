//! How many displays of a clock a dump has signals for.

use cantaribol::{Design, Expression, Form, Record, Statement};

use crate::listing::clocked;

/// A clock may make 4,096, but nobody looks at so many signals.
const MOST: usize = 64;

/// The most that any clock of the run displays, as far as there are signals
/// for it. They are named before the first clock, so the run is done twice.
pub fn most_displayed(design: &Design, clocks: u32) -> usize {
    if !design.records().iter().any(record_displays) {
        return 0;
    }
    let mut most = 0;
    let _ = clocked(&mut design.board(), clocks, |_, board| {
        most = board.displays().len().clamp(most, MOST);
        match most < MOST {
            true => Ok(()),
            false => Err(()),
        }
    });
    most
}

fn record_displays(record: &Record) -> bool {
    match record {
        Record::Method { body, .. } => displays(body),
        Record::Rule { guard, body, .. } => displays(guard) || displays(body),
        Record::Register { .. } | Record::User { .. } | Record::Schedule { .. } => false,
    }
}

/// Whether a display stands in the expression.
fn displays(expression: &Expression) -> bool {
    match &expression.form {
        Form::Number(_) | Form::Bool(_) | Form::Local(_) => false,
        Form::Operator(_, parts)
        | Form::Call {
            arguments: parts, ..
        } => parts.iter().any(displays),
        Form::If {
            condition,
            then,
            otherwise,
        } => displays(condition) || displays(then) || displays(otherwise),
        Form::When { guard, body } => displays(guard) || displays(body),
        Form::Block(statements) => statements.iter().any(|statement| match statement {
            Statement::Let(part) | Statement::Do(part) => displays(part),
        }),
        Form::Display(_) => true,
    }
}

#[cfg(test)]
mod tests {
    use super::*;

    const TRUE: &[u8] = &[2, 1];
    const DISPLAY: &[u8] = &[11, 1, 7, 0, 0, 0];

    fn rule(guard: &[u8], body: &[u8]) -> Vec<u8> {
        let length = (guard.len() + body.len()) as u8;
        [b"UMRL", &[length, 0][..], guard, body, b"SC\x01\0"].concat()
    }

    fn found(file: &[u8]) -> bool {
        let design = Design::read(file).expect("a design");
        design.records().iter().any(record_displays)
    }

    /// A display is found wherever an expression stands, and no other one is
    /// taken for it.
    #[test]
    fn wherever_it_stands() {
        for (front, behind) in [
            (&[][..], &[][..]),
            (&[4, 6], &[]),
            (&[4, 0], TRUE),
            (&[4, 0, 2, 1], &[]),
            (&[5], &[2, 1, 2, 1]),
            (&[5, 2, 1], TRUE),
            (&[5, 2, 1, 2, 1], &[]),
            (&[6], TRUE),
            (&[6, 2, 1], &[]),
            (&[7, 1, 8], &[]),
            (&[7, 1, 9], &[]),
            (&[7, 2, 9, 2, 1, 8], &[]),
            (&[10, 0, 0, 1], &[]),
            (&[10, 0, 0, 2, 3, 0], &[]),
        ] {
            for (part, is_one) in [(DISPLAY, true), (TRUE, false)] {
                let expression = [front, part, behind].concat();
                assert_eq!(found(&rule(TRUE, &expression)), is_one, "{expression:?}");
                assert_eq!(found(&rule(&expression, TRUE)), is_one, "{expression:?}");
                let head = [b"UMMD\x01\0\0", &[expression.len() as u8, 0][..]].concat();
                let method = [&head, &expression[..], b"SC\0"].concat();
                assert_eq!(found(&method), is_one, "{expression:?}");
            }
        }
    }
}
