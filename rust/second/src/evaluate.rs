//! Evaluating one rule: reads show the state as it stands, writes and
//! displays are collected in the log, and nothing is changed.

use crate::design::{Design, Expr, Instance, Method, MethodKind, Operator, Rule, Statement};
use crate::value::{Halt, Reason, Value};

/// The calls a rule may record, displays included.
pub const CALL_LIMIT: usize = 64;
/// The locals that may be live in one body.
pub const LIVE_LIMIT: usize = 16;

/// A recorded call, with what the conflict searches ask about its method.
#[derive(Clone, Copy, Debug, PartialEq, Eq)]
pub struct Call {
    pub instance: u8,
    pub method: u8,
    /// A read or write of a register: only these are in the port tables.
    pub on_register: bool,
    /// A V method without parameters; it never clashes with itself.
    pub niladic_value: bool,
}

/// What a rule has done so far. It is lent to each rule in turn, so that
/// its room is made once.
#[derive(Debug, Default)]
pub struct Log {
    pub calls: Vec<Call>,
    /// Instance and value, in the order collected.
    pub writes: Vec<(u8, i32)>,
    pub displays: Vec<i32>,
}

impl Log {
    fn clear(&mut self) {
        self.calls.clear();
        self.writes.clear();
        self.displays.clear();
    }

    /// A display counts as a call, though it takes no part in conflicts.
    fn test_call_limit(&self) -> Result<(), Reason> {
        match self.calls.len() + self.displays.len() < CALL_LIMIT {
            true => Ok(()),
            false => Err(Reason::CallLimit),
        }
    }
}

/// A rule's turn up to its value, which is Void. The log holds the calls,
/// writes and displays; they count only if the answer is Ok.
pub fn evaluate(design: &Design, rule: &Rule, state: &[i32], log: &mut Log) -> Result<(), Halt> {
    log.clear();
    let mut evaluator = Evaluator { design, state, log };
    let mut frame = Frame::of(rule.instance);
    if !evaluator.condition(&mut frame, &rule.guard)? {
        return Err(Halt::Unavailable);
    }
    match evaluator.expression(&mut frame, &rule.body, false)? {
        Value::Void => Ok(()),
        _ => Err(Reason::WrongKind.into()),
    }
}

/// The locals of one body, and the instance the body belongs to.
struct Frame {
    own: usize,
    locals: [Value; LIVE_LIMIT],
    live: usize,
}

impl Frame {
    fn of(own: usize) -> Self {
        Frame {
            own,
            locals: [Value::Void; LIVE_LIMIT],
            live: 0,
        }
    }

    fn bind(&mut self, value: Value) -> Result<(), Reason> {
        if self.live == LIVE_LIMIT {
            return Err(Reason::LocalLimit);
        }
        self.locals[self.live] = value;
        self.live += 1;
        Ok(())
    }

    fn local(&self, number: u8) -> Result<Value, Reason> {
        let live = &self.locals[..self.live];
        let found = live.get(usize::from(number));
        found.copied().ok_or(Reason::NoSuchLocal)
    }
}

struct Evaluator<'a> {
    design: &'a Design,
    state: &'a [i32],
    log: &'a mut Log,
}

type Answer<T = Value> = Result<T, Halt>;

impl Evaluator<'_> {
    /// `pure` is what the place around passes on to its parts.
    fn expression(&mut self, frame: &mut Frame, expr: &Expr, pure: bool) -> Answer {
        match expr {
            Expr::Number(number) => Ok(Value::Num(*number)),
            Expr::Bool(truth) => Ok(Value::Bool(*truth)),
            Expr::Local(number) => Ok(frame.local(*number)?),
            Expr::Operator(operator, operands) => self.operator(frame, *operator, operands, pure),
            Expr::If {
                condition,
                then,
                otherwise,
            } => match self.condition(frame, condition)? {
                true => self.expression(frame, then, pure),
                false => self.expression(frame, otherwise, pure),
            },
            Expr::When { guard, body } => match self.condition(frame, guard)? {
                true => self.expression(frame, body, pure),
                false => Err(Halt::Unavailable),
            },
            Expr::Block(statements) => self.block(frame, statements, pure),
            Expr::Call {
                instance,
                method,
                arguments,
            } => self.call(frame, (*instance, *method), arguments, pure),
            Expr::Display(operand) => self.display(frame, operand, pure),
        }
    }

    /// A guard or an if's condition: a pure place, tested for Bool at once.
    fn condition(&mut self, frame: &mut Frame, expr: &Expr) -> Answer<bool> {
        match self.expression(frame, expr, true)? {
            Value::Bool(truth) => Ok(truth),
            _ => Err(Reason::WrongKind.into()),
        }
    }

    /// All operands first, for and and or too; then their kinds.
    fn operator(
        &mut self,
        frame: &mut Frame,
        operator: Operator,
        operands: &[Expr],
        pure: bool,
    ) -> Answer {
        let left = self.expression(frame, &operands[0], pure)?;
        let right = match operands.get(1) {
            Some(operand) => self.expression(frame, operand, pure)?,
            None => left,
        };
        Ok(apply(operator, left, right)?)
    }

    fn block(&mut self, frame: &mut Frame, statements: &[Statement], pure: bool) -> Answer {
        let live = frame.live;
        let mut last = Value::Void;
        for statement in statements {
            last = match statement {
                Statement::Let(expr) => {
                    let value = self.expression(frame, expr, pure)?;
                    frame.bind(value)?;
                    Value::Void
                }
                Statement::Do(expr) => self.expression(frame, expr, pure)?,
            };
        }
        frame.live = live;
        Ok(last)
    }

    fn display(&mut self, frame: &mut Frame, operand: &Expr, pure: bool) -> Answer {
        if pure {
            return Err(Reason::ActionInPurePlace.into());
        }
        let Value::Num(number) = self.expression(frame, operand, pure)? else {
            return Err(Reason::WrongKind.into());
        };
        self.log.test_call_limit()?;
        self.log.displays.push(number);
        Ok(Value::Void)
    }

    /// Own is at most the number of instances, so one test is enough.
    fn call(
        &mut self,
        frame: &mut Frame,
        name: (u8, u8),
        arguments: &[Expr],
        pure: bool,
    ) -> Answer {
        let instance = usize::from(name.0);
        if instance >= frame.own {
            return Err(Reason::NoSuchInstance.into());
        }
        match &self.design.instances[instance] {
            Instance::Register { ports, .. } => {
                if name.1 >= 2 * ports {
                    return Err(Reason::NoSuchMethod.into());
                }
                self.register_call(frame, name, arguments, pure)
            }
            Instance::User { methods } => match methods.get(usize::from(name.1)) {
                Some(method) => self.method_call(frame, name, method, arguments, pure),
                None => Err(Reason::NoSuchMethod.into()),
            },
        }
    }

    /// Even methods read, odd ones write.
    fn register_call(
        &mut self,
        frame: &mut Frame,
        (instance, method): (u8, u8),
        arguments: &[Expr],
        pure: bool,
    ) -> Answer {
        let call = Call {
            instance,
            method,
            on_register: true,
            niladic_value: method % 2 == 0,
        };
        match (method % 2, arguments) {
            (0, []) => {
                self.record(call)?;
                Ok(Value::Num(self.state[usize::from(instance)]))
            }
            (1, [_]) if pure => Err(Reason::ActionInPurePlace.into()),
            (1, [argument]) => {
                let Value::Num(number) = self.expression(frame, argument, pure)? else {
                    return Err(Reason::WrongKind.into());
                };
                self.record(call)?;
                self.log.writes.push((instance, number));
                Ok(Value::Void)
            }
            _ => Err(Reason::WrongArgumentCount.into()),
        }
    }

    fn method_call(
        &mut self,
        frame: &mut Frame,
        (instance, number): (u8, u8),
        method: &Method,
        arguments: &[Expr],
        pure: bool,
    ) -> Answer {
        if arguments.len() != method.parameters.len() {
            return Err(Reason::WrongArgumentCount.into());
        }
        let is_value = method.kind == MethodKind::V;
        if pure && !is_value {
            return Err(Reason::ActionInPurePlace.into());
        }
        // The callee starts with its parameters only.
        let mut inner = Frame::of(usize::from(instance));
        for argument in arguments {
            let value = self.expression(frame, argument, pure)?;
            inner.bind(value)?;
        }
        test_kinds(&inner, method)?;
        self.record(Call {
            instance,
            method: number,
            on_register: false,
            niladic_value: is_value && method.parameters.is_empty(),
        })?;
        let value = self.expression(&mut inner, &method.body, is_value)?;
        match value.kind() == method.result {
            true => Ok(value),
            false => Err(Reason::WrongKind.into()),
        }
    }

    fn record(&mut self, call: Call) -> Result<(), Reason> {
        self.log.test_call_limit()?;
        self.log.calls.push(call);
        Ok(())
    }
}

/// The kinds are tested when all arguments have been evaluated.
fn test_kinds(inner: &Frame, method: &Method) -> Result<(), Reason> {
    let mut pairs = inner.locals.iter().zip(&method.parameters);
    match pairs.all(|(value, kind)| value.kind() == *kind) {
        true => Ok(()),
        false => Err(Reason::WrongKind),
    }
}

/// The board's operators; `right` is not looked at by not.
fn apply(operator: Operator, left: Value, right: Value) -> Result<Value, Reason> {
    use Value::{Bool, Num};
    match (operator, left, right) {
        (Operator::Plus, Num(left), Num(right)) => Ok(Num(left.wrapping_add(right))),
        (Operator::Minus, Num(left), Num(right)) => Ok(Num(left.wrapping_sub(right))),
        (Operator::Equal, Num(left), Num(right)) => Ok(Bool(left == right)),
        // Req 02: the ordinary signed order, also where the difference wraps.
        (Operator::Less, Num(left), Num(right)) => Ok(Bool(left < right)),
        (Operator::And, Bool(left), Bool(right)) => Ok(Bool(left && right)),
        (Operator::Or, Bool(left), Bool(right)) => Ok(Bool(left || right)),
        (Operator::Not, Bool(only), _) => Ok(Bool(!only)),
        _ => Err(Reason::WrongKind),
    }
}
