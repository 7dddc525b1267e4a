//! Expressions, from their bytes.

use super::reading::Cursor;
use super::{Expression, Form, Operator, Statement};

impl Cursor<'_> {
    /// The next expression. None where the bytes are none; the file was
    /// read, so this does not come up.
    pub fn expression(&mut self) -> Option<Expression> {
        let offset = self.at();
        let form = match self.byte()? {
            0x01 => Form::Number(self.number()?),
            0x02 => Form::Bool(self.byte()? == 1),
            0x03 => Form::Local(self.byte()?),
            0x04 => {
                let operator = *Operator::ALL.get(usize::from(self.byte()?))?;
                Form::Operator(operator, self.expressions(operator.operand_count())?)
            }
            0x05 => Form::If {
                condition: self.boxed()?,
                then: self.boxed()?,
                otherwise: self.boxed()?,
            },
            0x06 => Form::When {
                guard: self.boxed()?,
                body: self.boxed()?,
            },
            0x07 => Form::Block(self.statements()?),
            0x0A => Form::Call {
                instance: self.byte()?,
                method: self.byte()?,
                arguments: {
                    let count = self.byte()?;
                    self.expressions(usize::from(count))?
                },
            },
            0x0B => Form::Display(self.boxed()?),
            _ => return None,
        };
        Some(Expression { offset, form })
    }

    fn boxed(&mut self) -> Option<Box<Expression>> {
        self.expression().map(Box::new)
    }

    fn expressions(&mut self, count: usize) -> Option<Vec<Expression>> {
        (0..count).map(|_| self.expression()).collect()
    }

    fn statements(&mut self) -> Option<Vec<Statement>> {
        let count = self.byte()?;
        (0..count)
            .map(|_| match self.byte()? {
                0x08 => self.expression().map(Statement::Let),
                0x09 => self.expression().map(Statement::Do),
                _ => None,
            })
            .collect()
    }
}
