//! Expressions in prefix order. Every fault in here is number 7 at the
//! record, so None says all there is to say.

use super::DEPTH_LIMIT;
use crate::design::{Expr, Operator, Statement};

/// A method's body: exactly one expression.
pub fn method(bytes: &[u8]) -> Option<Expr> {
    let mut cursor = Cursor { rest: bytes };
    let body = cursor.expression(1)?;
    cursor.at_end().then_some(body)
}

/// A rule's guard and body: exactly two expressions, each an outermost one.
pub fn rule(bytes: &[u8]) -> Option<(Expr, Expr)> {
    let mut cursor = Cursor { rest: bytes };
    let guard = cursor.expression(1)?;
    let body = cursor.expression(1)?;
    cursor.at_end().then_some((guard, body))
}

struct Cursor<'a> {
    rest: &'a [u8],
}

impl Cursor<'_> {
    fn at_end(&self) -> bool {
        self.rest.is_empty()
    }

    fn byte(&mut self) -> Option<u8> {
        let (&first, rest) = self.rest.split_first()?;
        self.rest = rest;
        Some(first)
    }

    fn byte_within(&mut self, low: u8, high: u8) -> Option<u8> {
        self.byte().filter(|byte| (low..=high).contains(byte))
    }

    fn expression(&mut self, depth: usize) -> Option<Expr> {
        if depth > DEPTH_LIMIT {
            return None;
        }
        match self.byte()? {
            0x01 => self.number(),
            0x02 => Some(Expr::Bool(self.byte_within(0, 1)? == 1)),
            0x03 => Some(Expr::Local(self.byte()?)),
            0x04 => self.operator(depth),
            0x05 => Some(Expr::If {
                condition: self.inner(depth)?,
                then: self.inner(depth)?,
                otherwise: self.inner(depth)?,
            }),
            0x06 => Some(Expr::When {
                guard: self.inner(depth)?,
                body: self.inner(depth)?,
            }),
            0x07 => self.block(depth),
            0x0A => self.call(depth),
            0x0B => Some(Expr::Display(self.inner(depth)?)),
            _ => None,
        }
    }

    /// A part of an expression that stands at `depth`.
    fn inner(&mut self, depth: usize) -> Option<Box<Expr>> {
        self.expression(depth + 1).map(Box::new)
    }

    fn inners(&mut self, count: usize, depth: usize) -> Option<Vec<Expr>> {
        (0..count).map(|_| self.expression(depth + 1)).collect()
    }

    fn number(&mut self) -> Option<Expr> {
        let bytes = [self.byte()?, self.byte()?, self.byte()?, self.byte()?];
        Some(Expr::Number(i32::from_le_bytes(bytes)))
    }

    fn operator(&mut self, depth: usize) -> Option<Expr> {
        let operator = match self.byte()? {
            0 => Operator::Plus,
            1 => Operator::Minus,
            2 => Operator::Equal,
            3 => Operator::Less,
            4 => Operator::And,
            5 => Operator::Or,
            6 => Operator::Not,
            _ => return None,
        };
        let operands = self.inners(operator.operand_count(), depth)?;
        Some(Expr::Operator(operator, operands))
    }

    /// A statement has no depth of its own; its expression is the part.
    fn block(&mut self, depth: usize) -> Option<Expr> {
        let count = self.byte_within(1, 32)?;
        let mut statements = Vec::new();
        for _ in 0..count {
            statements.push(match self.byte()? {
                0x08 => Statement::Let(self.expression(depth + 1)?),
                0x09 => Statement::Do(self.expression(depth + 1)?),
                _ => return None,
            });
        }
        Some(Expr::Block(statements))
    }

    /// Instance and method have no range here: 23 and 24 come later.
    fn call(&mut self, depth: usize) -> Option<Expr> {
        let instance = self.byte()?;
        let method = self.byte()?;
        let count = self.byte_within(0, 4)?;
        let arguments = self.inners(usize::from(count), depth)?;
        Some(Expr::Call {
            instance,
            method,
            arguments,
        })
    }
}
