//! Evaluation's walk, with kinds for values: nothing is cut short by a
//! value, a call takes its callee's declared kinds, and calls are not
//! counted.

use crate::design::{Design, Expr, Instance, Kind, Method, MethodKind, Operator, Rule, Statement};
use crate::evaluate::LIVE_LIMIT;
use crate::value::Reason;

type Walked<T = Kind> = Result<T, Reason>;

/// A method's body must keep what its callers rely on: the declared result.
pub fn method(design: &Design, own: usize, method: &Method) -> Walked<()> {
    let mut walk = Walk::of(design, own);
    for kind in &method.parameters {
        walk.bind(*kind)?;
    }
    let found = walk.expression(&method.body, method.kind == MethodKind::V)?;
    must_be(method.result, found)
}

pub fn rule(design: &Design, rule: &Rule) -> Walked<()> {
    let mut walk = Walk::of(design, rule.instance);
    walk.condition(&rule.guard)?;
    let found = walk.expression(&rule.body, false)?;
    must_be(Kind::Void, found)
}

fn must_be(wanted: Kind, found: Kind) -> Walked<()> {
    match found == wanted {
        true => Ok(()),
        false => Err(Reason::WrongKind),
    }
}

/// The kinds of an operator's operands and of its value.
fn kinds(operator: Operator) -> (Kind, Kind) {
    match operator {
        Operator::Plus | Operator::Minus => (Kind::Num, Kind::Num),
        Operator::Equal | Operator::Less => (Kind::Num, Kind::Bool),
        Operator::And | Operator::Or | Operator::Not => (Kind::Bool, Kind::Bool),
    }
}

/// What a caller knows of a method.
struct Face<'a> {
    is_value: bool,
    parameters: &'a [Kind],
    result: Kind,
}

struct Walk<'a> {
    design: &'a Design,
    own: usize,
    locals: [Kind; LIVE_LIMIT],
    live: usize,
}

impl<'a> Walk<'a> {
    fn of(design: &'a Design, own: usize) -> Self {
        Walk {
            design,
            own,
            locals: [Kind::Void; LIVE_LIMIT],
            live: 0,
        }
    }

    fn bind(&mut self, kind: Kind) -> Walked<()> {
        if self.live == LIVE_LIMIT {
            return Err(Reason::LocalLimit);
        }
        self.locals[self.live] = kind;
        self.live += 1;
        Ok(())
    }

    fn expression(&mut self, expr: &Expr, pure: bool) -> Walked {
        match expr {
            Expr::Number(_) => Ok(Kind::Num),
            Expr::Bool(_) => Ok(Kind::Bool),
            Expr::Local(number) => {
                let found = self.locals[..self.live].get(usize::from(*number));
                found.copied().ok_or(Reason::NoSuchLocal)
            }
            Expr::Operator(operator, operands) => self.operator(*operator, operands, pure),
            Expr::If {
                condition,
                then,
                otherwise,
            } => {
                self.condition(condition)?;
                let one = self.expression(then, pure)?;
                let other = self.expression(otherwise, pure)?;
                must_be(one, other)?;
                Ok(one)
            }
            Expr::When { guard, body } => {
                self.condition(guard)?;
                self.expression(body, pure)
            }
            Expr::Block(statements) => self.block(statements, pure),
            Expr::Call {
                instance,
                method,
                arguments,
            } => self.call(*instance, *method, arguments, pure),
            Expr::Display(operand) => self.display(operand, pure),
        }
    }

    fn condition(&mut self, expr: &Expr) -> Walked<()> {
        let found = self.expression(expr, true)?;
        must_be(Kind::Bool, found)
    }

    fn operator(&mut self, operator: Operator, operands: &[Expr], pure: bool) -> Walked {
        let (wanted, value) = kinds(operator);
        let mut right = true;
        for operand in operands {
            right &= self.expression(operand, pure)? == wanted;
        }
        match right {
            true => Ok(value),
            false => Err(Reason::WrongKind),
        }
    }

    fn block(&mut self, statements: &[Statement], pure: bool) -> Walked {
        let live = self.live;
        let mut last = Kind::Void;
        for statement in statements {
            last = match statement {
                Statement::Let(expr) => {
                    let kind = self.expression(expr, pure)?;
                    self.bind(kind)?;
                    Kind::Void
                }
                Statement::Do(expr) => self.expression(expr, pure)?,
            };
        }
        self.live = live;
        Ok(last)
    }

    fn display(&mut self, operand: &Expr, pure: bool) -> Walked {
        if pure {
            return Err(Reason::ActionInPurePlace);
        }
        let found = self.expression(operand, pure)?;
        must_be(Kind::Num, found)?;
        Ok(Kind::Void)
    }

    fn call(&mut self, instance: u8, method: u8, arguments: &[Expr], pure: bool) -> Walked {
        let face = self.face(instance, method)?;
        if arguments.len() != face.parameters.len() {
            return Err(Reason::WrongArgumentCount);
        }
        if pure && !face.is_value {
            return Err(Reason::ActionInPurePlace);
        }
        let mut right = true;
        for (argument, wanted) in arguments.iter().zip(face.parameters) {
            right &= self.expression(argument, pure)? == *wanted;
        }
        match right {
            true => Ok(face.result),
            false => Err(Reason::WrongKind),
        }
    }

    /// The instance is tested before the method.
    fn face(&self, instance: u8, method: u8) -> Walked<Face<'a>> {
        let instance = usize::from(instance);
        if instance >= self.own {
            return Err(Reason::NoSuchInstance);
        }
        match &self.design.instances[instance] {
            Instance::Register { ports, .. } if method >= 2 * ports => Err(Reason::NoSuchMethod),
            Instance::Register { .. } if method.is_multiple_of(2) => Ok(Face {
                is_value: true,
                parameters: &[],
                result: Kind::Num,
            }),
            Instance::Register { .. } => Ok(Face {
                is_value: false,
                parameters: &[Kind::Num],
                result: Kind::Void,
            }),
            Instance::User { methods } => {
                let found = methods.get(usize::from(method));
                let method = found.ok_or(Reason::NoSuchMethod)?;
                Ok(Face {
                    is_value: method.kind == MethodKind::V,
                    parameters: &method.parameters,
                    result: method.result,
                })
            }
        }
    }
}
