//! The calls that a body could make. Each method is counted once, as going
//! into it at every call could take 2^62 steps; and the sums stop at the
//! largest number, as they can pass 2^64.

use crate::design::{Design, Expr, Instance, Rule, Statement};

/// By instance and method, the calls that the method's body could make. The
/// design has passed the walk, so every call names a method counted before.
pub struct Counts {
    methods: Vec<Vec<u64>>,
}

impl Counts {
    /// Callees have lower instance numbers, so one pass upwards is enough.
    pub fn of(design: &Design) -> Self {
        let mut counts = Counts {
            methods: Vec::new(),
        };
        for instance in &design.instances {
            let of_instance = match instance {
                Instance::Register { .. } => Vec::new(),
                Instance::User { methods } => methods
                    .iter()
                    .map(|method| counts.expression(&method.body))
                    .collect(),
            };
            counts.methods.push(of_instance);
        }
        counts
    }

    pub fn of_rule(&self, rule: &Rule) -> u64 {
        let guard = self.expression(&rule.guard);
        guard.saturating_add(self.expression(&rule.body))
    }

    fn expression(&self, expr: &Expr) -> u64 {
        match expr {
            Expr::Number(_) | Expr::Bool(_) | Expr::Local(_) => 0,
            Expr::Operator(_, operands) => self.sum(operands),
            Expr::If {
                condition,
                then,
                otherwise,
            } => {
                let larger = self.expression(then).max(self.expression(otherwise));
                self.expression(condition).saturating_add(larger)
            }
            Expr::When { guard, body } => {
                let guard = self.expression(guard);
                guard.saturating_add(self.expression(body))
            }
            Expr::Block(statements) => self.sum(
                statements
                    .iter()
                    .map(|(Statement::Let(expr) | Statement::Do(expr))| expr),
            ),
            Expr::Call {
                instance,
                method,
                arguments,
            } => {
                let body = self.body(*instance, *method);
                self.sum(arguments).saturating_add(1).saturating_add(body)
            }
            Expr::Display(operand) => self.expression(operand).saturating_add(1),
        }
    }

    fn sum<'e>(&self, parts: impl IntoIterator<Item = &'e Expr>) -> u64 {
        let counts = parts.into_iter().map(|part| self.expression(part));
        counts.fold(0, u64::saturating_add)
    }

    /// A register's methods have no body.
    fn body(&self, instance: u8, method: u8) -> u64 {
        let methods = &self.methods[usize::from(instance)];
        methods.get(usize::from(method)).copied().unwrap_or(0)
    }
}
