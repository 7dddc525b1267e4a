//! A third interpreter, straight over the bytes, with one twist or none.

use second::{Design, Instance, Kind, MethodKind, Value};

use crate::twist::Twist::{self, *};

pub enum End {
    Gone,
    Stuck(u8),
}

pub type Eval<T = Value> = Result<T, End>;

pub struct Frame {
    pub own: usize,
    pub locals: Vec<Value>,
    /// Live locals beside `locals`, by some twist; under 0 when some of
    /// these do not count.
    pub others: isize,
    /// How many bodies stand around this one.
    pub callers: usize,
}

/// What is declared of a method.
pub struct Face {
    pub kind: MethodKind,
    pub parameters: Vec<Kind>,
    pub result: Kind,
    /// Where the body begins; None for a register.
    pub body: Option<usize>,
}

pub struct Third<'a> {
    pub file: &'a [u8],
    /// For what is declared; its trees are not looked at.
    pub design: &'a Design,
    pub twist: Twist,
    /// The registers as reads show them.
    pub seen: Vec<i32>,
    pub calls: Vec<(u8, u8)>,
    pub count: usize,
    pub writes: Vec<(u8, i32)>,
    pub shows: Vec<i32>,
    /// All calls; some twists would else go on for ever.
    pub made: usize,
}

/// Stands for a display among the calls, by a twist.
pub const DISPLAY: (u8, u8) = (255, 255);

fn stuck<T>(number: u8) -> Eval<T> {
    Err(End::Stuck(number))
}

impl<'a> Third<'a> {
    pub fn new(file: &'a [u8], design: &'a Design, twist: Twist) -> Self {
        Third {
            file,
            design,
            twist,
            seen: vec![],
            calls: vec![],
            count: 0,
            writes: vec![],
            shows: vec![],
            made: 0,
        }
    }

    pub fn is(&self, twist: Twist) -> bool {
        self.twist == twist
    }

    pub fn byte(&self, at: &mut usize) -> u8 {
        *at += 1;
        self.file[*at - 1]
    }

    /// Go past one expression.
    pub fn skip(&self, at: &mut usize) {
        let parts = match self.byte(at) {
            1 => return *at += 4,
            2 | 3 => return *at += 1,
            4 => 2 - usize::from(self.byte(at) == 6),
            5 => 3,
            6 => 2,
            7 => {
                for _ in 0..self.byte(at) {
                    *at += 1;
                    self.skip(at);
                }
                return;
            }
            10 => {
                *at += 2;
                usize::from(self.byte(at))
            }
            _ => 1,
        };
        (0..parts).for_each(|_| self.skip(at));
    }

    pub fn expr(&mut self, at: &mut usize, frame: &mut Frame, pure: bool) -> Eval {
        match self.byte(at) {
            1 => {
                let bytes = self.file[*at..*at + 4].try_into().expect("four bytes");
                *at += 4;
                Ok(Value::Num(i32::from_le_bytes(bytes)))
            }
            2 => Ok(Value::Bool(self.byte(at) == 1)),
            3 => {
                let mut number = usize::from(self.byte(at));
                if self.is(LocalsFromTheLatest) && number < frame.locals.len() {
                    number = frame.locals.len() - 1 - number;
                }
                frame.locals.get(number).copied().ok_or(End::Stuck(22))
            }
            4 => self.operator(at, frame, pure && !self.is(OperandsAreFresh)),
            5 => self.choice(at, frame, pure),
            6 => self.when(at, frame, pure),
            7 => self.block(at, frame, pure && !self.is(BlockIsFresh)),
            10 => self.call(at, frame, pure),
            _ => self.display(at, frame, pure),
        }
    }

    pub fn condition(&mut self, at: &mut usize, frame: &mut Frame, pure: bool) -> Eval<bool> {
        match self.expr(at, frame, pure)? {
            Value::Bool(truth) => Ok(truth),
            Value::Num(number @ 0..=1) if self.is(OneIsTrue) => Ok(number == 1),
            _ => stuck(21),
        }
    }

    /// An expression; where it is unavailable and the twist has it, what is
    /// left to do goes on and the place is right.
    fn going_on(&mut self, at: &mut usize, frame: &mut Frame, pure: bool, on: bool) -> Eval {
        let start = *at;
        let value = self.expr(at, frame, pure);
        if on && matches!(value, Err(End::Gone)) {
            *at = start;
            self.skip(at);
        }
        value
    }

    fn operator(&mut self, at: &mut usize, frame: &mut Frame, pure: bool) -> Eval {
        let byte = self.byte(at);
        let on = self.is(UnavailableOperandGoesOn);
        let left = self.going_on(at, frame, pure, on);
        if byte == 6 {
            return match left? {
                Value::Bool(truth) => Ok(Value::Bool(!truth)),
                _ => stuck(21),
            };
        }
        if on && matches!(left, Err(End::Gone)) {
            self.expr(at, frame, pure)?;
        }
        let left = left?;
        let wanted = if byte < 4 { Kind::Num } else { Kind::Bool };
        if self.is(OperandKindsOneByOne) && left.kind() != wanted {
            return stuck(21);
        }
        let cut = match byte {
            4 if self.is(AndIsCutShort) => left == Value::Bool(false),
            5 if self.is(OrIsCutShort) => left == Value::Bool(true),
            _ => false,
        };
        if cut {
            self.skip(at);
            return Ok(left);
        }
        let right = self.expr(at, frame, pure)?;
        self.apply(byte, left, right)
    }

    fn apply(&self, byte: u8, left: Value, right: Value) -> Eval {
        match (left, right) {
            (Value::Num(a), Value::Num(b)) => Ok(match byte {
                0 if self.is(PlusSaturates) => Value::Num(a.saturating_add(b)),
                0 => Value::Num((i64::from(a) + i64::from(b)) as i32),
                1 if self.is(MinusSaturates) => Value::Num(a.saturating_sub(b)),
                1 => Value::Num((i64::from(a) - i64::from(b)) as i32),
                2 => Value::Bool(a == b),
                3 => Value::Bool(self.less(a, b)),
                _ => return stuck(21),
            }),
            (Value::Bool(a), Value::Bool(b)) => Ok(Value::Bool(match byte {
                2 if self.is(EqualTakesBools) => a == b,
                4 => a & b,
                5 => a | b,
                _ => return stuck(21),
            })),
            _ => stuck(21),
        }
    }

    /// The sign of the difference, which has 33 bits.
    fn less(&self, a: i32, b: i32) -> bool {
        let difference = i64::from(a) - i64::from(b);
        let below = difference < i64::from(i32::MIN);
        let above = difference > i64::from(i32::MAX);
        let wraps = self.is(LessIsABareSubtracter)
            || (above && self.is(LessMendsOnlyBelowTheLeast))
            || (below && self.is(LessMendsOnlyAboveTheGreatest));
        match wraps {
            true => (difference as i32) < 0,
            false if self.is(LessIsUnsigned) => (a as u32) < b as u32,
            false => difference < i64::from(self.is(LessOrEqual)),
        }
    }

    fn choice(&mut self, at: &mut usize, frame: &mut Frame, pure: bool) -> Eval {
        let in_condition = pure || !self.is(ConditionIsNotPure);
        let holds = self.condition(at, frame, in_condition)?;
        let in_arm = pure && !self.is(ArmIsFresh);
        let mut taken = *at;
        self.skip(at);
        let mut other = *at;
        self.skip(at);
        if !holds {
            std::mem::swap(&mut taken, &mut other);
        }
        let value = self.expr(&mut taken, frame, in_arm)?;
        if self.is(BothArmsAreEvaluated) {
            self.expr(&mut other, frame, in_arm)?;
        }
        Ok(value)
    }

    fn when(&mut self, at: &mut usize, frame: &mut Frame, pure: bool) -> Eval {
        let in_guard = pure || !self.is(WhenGuardIsNotPure);
        if !self.condition(at, frame, in_guard)? {
            if self.is(WhenFalseIsVoid) {
                self.skip(at);
                return Ok(Value::Void);
            }
            return Err(End::Gone);
        }
        let in_body = (pure || self.is(WhenBodyIsPure)) && !self.is(WhenBodyIsFresh);
        self.expr(at, frame, in_body)
    }

    fn full(&self, frame: &Frame) -> bool {
        let most = 16 + isize::from(self.is(Live17)) - isize::from(self.is(Live15));
        frame.locals.len() as isize + frame.others >= most
    }

    fn block(&mut self, at: &mut usize, frame: &mut Frame, pure: bool) -> Eval {
        let live = frame.locals.len();
        let mut last = Value::Void;
        for left in (0..self.byte(at)).rev() {
            let binds = self.byte(at) == 8;
            if binds && self.is(LiveTestedBeforeLet) && self.full(frame) {
                return stuck(28);
            }
            let value = self.expr(at, frame, pure)?;
            if binds {
                self.bind(frame, value, left == 0)?;
                let kept = self.is(LetHasItsValue);
                last = if kept { value } else { Value::Void };
            } else {
                last = value;
                if left > 0 && self.is(MiddleDoMustBeVoid) && value != Value::Void {
                    return stuck(21);
                }
            }
        }
        if !self.is(BlockIsNotFreed) {
            frame.locals.truncate(live);
        }
        Ok(last)
    }

    fn bind(&self, frame: &mut Frame, value: Value, is_last: bool) -> Eval<()> {
        if is_last && self.is(LastLetIsNotBound) {
            return Ok(());
        }
        if value == Value::Void && self.is(VoidLetIsRefused) {
            return stuck(21);
        }
        if self.full(frame) {
            return stuck(28);
        }
        frame.locals.push(value);
        Ok(())
    }

    fn limit(&self) -> Eval<()> {
        let most = match self.twist {
            Limit63 => 63,
            Limit65 => 65,
            LimitAfterBody => 200,
            _ => 64,
        };
        match self.count >= most || self.made > 3000 {
            true => stuck(27),
            false => Ok(()),
        }
    }

    fn display(&mut self, at: &mut usize, frame: &mut Frame, pure: bool) -> Eval {
        if pure && !self.is(DisplayInPurePlace) {
            return stuck(26);
        }
        let value = self.expr(at, frame, pure)?;
        if self.is(DisplayLimitBeforeKind) {
            self.limit()?;
        }
        let Value::Num(number) = value else {
            return stuck(21);
        };
        self.limit()?;
        self.made += 1;
        self.count += usize::from(!self.is(DisplaysAreNoCalls));
        self.shows.push(number);
        if self.is(DisplaysClash) {
            self.calls.push(DISPLAY);
        }
        Ok(Value::Void)
    }

    /// What is declared, whoever calls.
    pub fn face(&self, instance: u8, method: u8) -> Option<Face> {
        match self.design.instances.get(usize::from(instance))? {
            Instance::Register { ports, .. } => {
                let ports = if self.is(PortsAreNotTested) {
                    4
                } else {
                    *ports
                };
                let read = method.is_multiple_of(2);
                (method < 2 * ports).then(|| Face {
                    kind: if read { MethodKind::V } else { MethodKind::A },
                    parameters: if read { vec![] } else { vec![Kind::Num] },
                    result: if read { Kind::Num } else { Kind::Void },
                    body: None,
                })
            }
            Instance::User { methods } => {
                let method = methods.get(usize::from(method))?;
                Some(Face {
                    kind: method.kind,
                    parameters: method.parameters.clone(),
                    result: method.result,
                    body: Some(method.part.start),
                })
            }
        }
    }

    fn named(&self, own: usize, instance: u8, method: u8) -> Eval<Face> {
        let known = usize::from(instance) < self.design.instances.len();
        let face = self.face(instance, method);
        if self.is(MethodBeforeInstance) && known && face.is_none() {
            return stuck(24);
        }
        let below = own + usize::from(self.is(OwnInstanceIsAllowed));
        if !known || usize::from(instance) >= below {
            return stuck(23);
        }
        face.ok_or(End::Stuck(24))
    }

    fn call(&mut self, at: &mut usize, frame: &mut Frame, pure: bool) -> Eval {
        let (instance, method) = (self.byte(at), self.byte(at));
        let count = usize::from(self.byte(at));
        let face = self.named(frame.own, instance, method)?;
        let allowed = match face.kind {
            MethodKind::V => true,
            MethodKind::A => face.body.is_none() && self.is(WriteInPurePlace),
            MethodKind::AV => self.is(ActionValueInPurePlace),
        };
        let impure = pure && !allowed;
        if impure && self.is(PurityBeforeCount) {
            return stuck(26);
        }
        if count != face.parameters.len() {
            return stuck(25);
        }
        if impure && !self.is(PurityAfterArguments) {
            return stuck(26);
        }
        if self.is(LimitBeforeArguments) {
            self.limit()?;
        }
        let values = self.arguments(at, frame, &face, pure)?;
        if impure {
            return stuck(26);
        }
        if self.is(CallLimitBeforeKinds) {
            self.limit()?;
        }
        let mut pairs = values.iter().zip(&face.parameters);
        if pairs.any(|(value, kind)| value.kind() != *kind) {
            return stuck(21);
        }
        self.limit()?;
        self.record(frame, instance, method, face.body.is_some());
        self.done(frame, instance, &face, values)
    }

    fn arguments(
        &mut self,
        at: &mut usize,
        frame: &mut Frame,
        face: &Face,
        pure: bool,
    ) -> Eval<Vec<Value>> {
        let pure = (pure || self.is(ArgumentsArePure)) && !self.is(ArgumentsAreFresh);
        let on = self.is(UnavailableArgumentGoesOn);
        let mut values = vec![];
        let mut gone = false;
        for kind in &face.parameters {
            match self.going_on(at, frame, pure, on) {
                Err(End::Gone) if on => gone = true,
                Err(end) => return Err(end),
                Ok(value) => values.push(value),
            }
            let wrong = values.last().is_some_and(|value| value.kind() != *kind);
            if wrong && !gone && self.is(ArgumentKindsOneByOne) {
                return stuck(21);
            }
        }
        match gone {
            true => Err(End::Gone),
            false => Ok(values),
        }
    }

    fn record(&mut self, frame: &Frame, instance: u8, method: u8, user: bool) {
        let inner = frame.callers > 0;
        let counted = match self.twist {
            CalleeCallsAreNotCounted => !inner,
            UserCallsAreNotCounted => !user,
            _ => true,
        };
        let recorded = match self.twist {
            CallsInCalleesAreNotRecorded => !inner,
            UserCallsAreNotRecorded => !user,
            _ => true,
        };
        self.made += 1;
        self.count += usize::from(counted);
        if recorded {
            self.calls.push((instance, method));
        }
    }

    /// The register or the body, when all tests are passed.
    fn done(&mut self, frame: &Frame, instance: u8, face: &Face, values: Vec<Value>) -> Eval {
        let Some(mut body) = face.body else {
            return Ok(self.register(instance, &values));
        };
        let parameters = values.len() as isize;
        let mut inner = Frame {
            own: match self.is(CalleeCallsLikeItsCaller) {
                true => frame.own,
                false => usize::from(instance),
            },
            locals: values,
            others: 0,
            callers: frame.callers + 1,
        };
        match self.twist {
            CallersLocalsAreLive => inner.others = frame.locals.len() as isize + frame.others,
            ParametersAreNotLive => inner.others = -parameters,
            _ => {}
        }
        let pure = face.kind == MethodKind::V && !self.is(ValueBodyIsNotPure);
        let value = self.expr(&mut body, &mut inner, pure)?;
        self.judged(value, face.result)
    }

    fn judged(&self, value: Value, result: Kind) -> Eval {
        if self.is(LimitAfterBody) && self.count > 64 {
            return stuck(27);
        }
        match value.kind() == result || self.is(ResultIsNotTested) {
            true => Ok(value),
            false => stuck(21),
        }
    }

    fn register(&mut self, instance: u8, values: &[Value]) -> Value {
        match values {
            [Value::Num(number)] => {
                self.writes.push((instance, *number));
                Value::Void
            }
            _ => {
                let mut own = self.writes.iter().rev();
                let written = own.find(|(register, _)| *register == instance);
                Value::Num(match written {
                    Some((_, number)) if self.is(ReadSeesOwnWrite) => *number,
                    _ => self.seen[usize::from(instance)],
                })
            }
        }
    }
}
