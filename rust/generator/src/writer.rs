//! Random bodies. Without slips they are well kinded: right kinds, locals,
//! calls, purity and call counts. A slip makes one part wrong in one of the
//! ways that 21 to 28 tell apart; the bytes always read.

use crate::random::Random;
use crate::record::Body;

#[derive(Clone, Copy, Debug, PartialEq, Eq)]
pub enum Kind {
    Void,
    Num,
    Bool,
}

/// The kind bytes of MD records.
pub const V: u8 = 0;
pub const A: u8 = 1;
pub const AV: u8 = 2;

#[derive(Clone, Debug)]
pub struct Signature {
    pub kind: u8,
    pub result: Kind,
    pub parameters: Vec<Kind>,
    /// The calls one call of it makes at most, itself left out.
    pub calls: usize,
}

/// What a caller may know of an instance.
#[derive(Clone, Debug)]
pub enum Face {
    Register { ports: u8 },
    User { methods: Vec<Signature> },
}

/// How bodies are to be.
#[derive(Clone, Copy, Debug)]
pub struct Care {
    /// Parts with parts of their own that one body has at most, or nearly.
    pub room: usize,
    pub deepest: usize,
    /// Slips in a thousand expressions.
    pub slips: usize,
    /// Registers are mostly used by this port, or by the last they have.
    pub port: Option<u8>,
    /// Slips are also of the sorts that show only in running or the check.
    pub for_running: bool,
}

pub struct Writer<'a> {
    pub random: &'a mut Random,
    /// The instances with numbers below the caller's own, and its own.
    pub faces: &'a [Face],
    pub own: usize,
    pub care: Care,
    /// The kinds of the live locals.
    pub locals: Vec<Kind>,
    /// The calls that may still be made.
    pub calls: usize,
    pub body: Body,
}

const LIVE_LIMIT: usize = 16;

impl Writer<'_> {
    pub fn expression(&mut self, want: Kind, depth: usize, pure: bool) {
        if self.care.slips > 0 && self.random.below(1000) < self.care.slips {
            return self.slip(want, depth, pure);
        }
        self.right(want, depth, pure);
    }

    fn right(&mut self, want: Kind, depth: usize, pure: bool) {
        // Void may need one depth more than the leaf, hence the 15.
        if self.care.room == 0 || depth >= self.care.deepest.min(15) {
            return self.leaf(want, depth);
        }
        self.care.room -= 1;
        match (want, self.random.below(20)) {
            (_, 0..=1) => self.write_if(want, depth, pure),
            (_, 2) => self.write_when(want, depth, pure),
            (_, 3..=4) => self.write_block(want, depth, pure),
            (_, 5..=9) => self.write_call(want, depth, pure),
            (Kind::Void, 10..=13) if !pure && self.calls > 0 => self.write_display(depth, pure),
            (Kind::Void, 10..=16) => self.write_block(want, depth, pure),
            (Kind::Num, 10..=15) => {
                let operator = self.random.pick(&[0, 1]);
                self.write_operator(operator, Kind::Num, depth, pure);
            }
            (Kind::Bool, 10..=13) => {
                let operator = self.random.pick(&[2, 3]);
                self.write_operator(operator, Kind::Num, depth, pure);
            }
            (Kind::Bool, 14..=16) => {
                let operator = self.random.pick(&[4, 5, 6]);
                self.write_operator(operator, Kind::Bool, depth, pure);
            }
            _ => self.leaf(want, depth),
        }
    }

    fn leaf(&mut self, want: Kind, depth: usize) {
        let fits = |number: &usize| self.locals[*number] == want;
        let fitting: Vec<usize> = (0..self.locals.len()).filter(fits).collect();
        if !fitting.is_empty() && (want == Kind::Void || self.random.in_hundred(60)) {
            let number = self.random.pick(&fitting);
            return self.body.local(number as u8);
        }
        match want {
            Kind::Bool => self.body.bool(self.random.in_hundred(70)),
            Kind::Void if depth < 16 => {
                self.body.block(1);
                self.body.open_let();
                self.body.number(self.random.number());
            }
            _ => self.body.number(self.random.number()),
        }
    }

    fn write_operator(&mut self, operator: u8, operand: Kind, depth: usize, pure: bool) {
        self.body.operator(operator);
        self.expression(operand, depth + 1, pure);
        if operator != 6 {
            self.expression(operand, depth + 1, pure);
        }
    }

    fn write_if(&mut self, want: Kind, depth: usize, pure: bool) {
        self.body.open_if();
        self.expression(Kind::Bool, depth + 1, true);
        self.expression(want, depth + 1, pure);
        self.expression(want, depth + 1, pure);
    }

    fn write_when(&mut self, want: Kind, depth: usize, pure: bool) {
        self.body.open_when();
        self.expression(Kind::Bool, depth + 1, true);
        self.expression(want, depth + 1, pure);
    }

    fn write_display(&mut self, depth: usize, pure: bool) {
        self.calls -= 1;
        self.body.display();
        self.expression(Kind::Num, depth + 1, pure);
    }

    fn write_block(&mut self, want: Kind, depth: usize, pure: bool) {
        let live = self.locals.len();
        let count = match self.random.below(40) {
            0 => self.random.within(5, 32),
            _ => self.random.within(1, 4),
        };
        self.body.block(count);
        for left in (0..count).rev() {
            if left > 0 {
                self.write_statement(depth, pure);
            } else if want == Kind::Void && self.may_bind() && self.random.in_hundred(30) {
                self.write_let(depth, pure);
            } else {
                self.body.open_do();
                self.expression(want, depth + 1, pure);
            }
        }
        self.locals.truncate(live);
    }

    /// One place is kept free: a Void leaf may want to bind.
    fn may_bind(&self) -> bool {
        self.locals.len() + 1 < LIVE_LIMIT
    }

    fn write_statement(&mut self, depth: usize, pure: bool) {
        if self.may_bind() && self.random.in_hundred(50) {
            return self.write_let(depth, pure);
        }
        let want = match self.random.below(10) {
            0 => Kind::Num,
            1 => Kind::Bool,
            _ => Kind::Void,
        };
        self.body.open_do();
        self.expression(want, depth + 1, pure);
    }

    fn write_let(&mut self, depth: usize, pure: bool) {
        let want = match self.random.below(10) {
            0 => Kind::Void,
            1..=3 => Kind::Bool,
            _ => Kind::Num,
        };
        self.body.open_let();
        self.expression(want, depth + 1, pure);
        self.locals.push(want);
    }

    fn write_call(&mut self, want: Kind, depth: usize, pure: bool) {
        let fitting = self.callable(want, pure);
        if fitting.is_empty() {
            return self.leaf(want, depth);
        }
        let (instance, method) = self.random.pick(&fitting);
        let (parameters, calls) = match &self.faces[instance] {
            Face::Register { .. } if method % 2 == 0 => (vec![], 0),
            Face::Register { .. } => (vec![Kind::Num], 0),
            Face::User { methods } => {
                let signature = &methods[method];
                (signature.parameters.clone(), signature.calls)
            }
        };
        self.calls -= calls + 1;
        self.body
            .call(instance as u8, method as u8, parameters.len());
        for parameter in parameters {
            self.expression(parameter, depth + 1, pure);
        }
    }

    /// The port to keep to in one call, if any.
    fn kept_port(&mut self) -> Option<u8> {
        match self.care.port {
            Some(_) if self.random.in_hundred(12) => None,
            kept => kept,
        }
    }

    /// The methods that may be called here and give what is wanted.
    fn callable(&mut self, want: Kind, pure: bool) -> Vec<(usize, usize)> {
        let port = self.kept_port();
        let mut fitting = Vec::new();
        for (instance, face) in self.faces[..self.own].iter().enumerate() {
            match face {
                Face::Register { ports } if self.calls > 0 => {
                    let first = match want {
                        Kind::Num => 0,
                        Kind::Void if !pure => 1,
                        _ => continue,
                    };
                    let kept = match port {
                        Some(port) => port.min(*ports - 1)..port.min(*ports - 1) + 1,
                        None => 0..*ports,
                    };
                    let method = |port: u8| (instance, 2 * usize::from(port) + first);
                    fitting.extend(kept.map(method));
                }
                Face::Register { .. } => {}
                Face::User { methods } => {
                    for (method, signature) in methods.iter().enumerate() {
                        let allowed = !pure || signature.kind == V;
                        let cheap = signature.calls < self.calls;
                        if allowed && cheap && signature.result == want {
                            fitting.push((instance, method));
                        }
                    }
                }
            }
        }
        fitting
    }

    /// Something that reads, but is wrong or may be.
    fn slip(&mut self, want: Kind, depth: usize, pure: bool) {
        if self.care.for_running && depth < 12 && self.random.in_hundred(40) {
            return self.slip_for_running(want, depth, pure);
        }
        match self.random.below(10) {
            0..=2 => {
                let other = self.random.pick(&[Kind::Void, Kind::Num, Kind::Bool]);
                self.right(other, depth, pure);
            }
            3..=4 => {
                let past = self.locals.len() + self.random.below(3);
                let number = self.random.pick(&[past as u8, 15, 16, 255]);
                self.body.local(number);
            }
            5..=6 => self.slip_call(depth, pure),
            7..=8 => self.right(want, depth, false),
            _ if depth < 16 => self.slip_limit(depth, pure),
            _ => self.leaf(want, depth),
        }
    }

    /// A call that names anything, with any arguments.
    fn slip_call(&mut self, depth: usize, pure: bool) {
        let instance = match self.random.below(5) {
            0 => self.own,
            1 => self.own + 1,
            2 => self.random.pick(&[63, 64, 255]),
            _ => self.random.below(self.own + 1),
        };
        let method = self.random.pick(&[0, 0, 1, 1, 2, 3, 7, 8, 255]);
        let most = if depth < 16 { 4 } else { 0 };
        let count = self.random.within(0, most);
        self.body.call(instance as u8, method, count);
        for _ in 0..count {
            let kind = self.random.pick(&[Kind::Num, Kind::Num, Kind::Bool]);
            self.expression(kind, depth + 1, pure);
        }
    }

    /// Slips that only show when a design is run or checked.
    fn slip_for_running(&mut self, want: Kind, depth: usize, pure: bool) {
        match self.random.below(9) {
            0 if !pure && want == Kind::Void => self.slip_displays(depth),
            1 => self.slip_bools(want, depth, pure),
            2 => self.slip_last_let(depth, pure),
            3..=4 => self.slip_two_arguments(want, depth, pure),
            5..=6 => self.slip_action_value(want, depth, pure),
            _ => self.slip_action(want, depth, pure),
        }
    }

    /// An action in the guard of a when, or in a part that is pure only if
    /// its whole is: body, arm, argument, operand.
    fn slip_action(&mut self, want: Kind, depth: usize, pure: bool) {
        let arguments = |m: &Signature| m.kind == V && m.parameters.len() == 1;
        let fitting = self.user_methods(|m| arguments(m) && m.result == want);
        match self.random.below(6) {
            0 if !fitting.is_empty() => {
                let (instance, method, signature) = &fitting[self.random.below(fitting.len())];
                self.body.call(*instance as u8, *method as u8, 1);
                self.acting(signature.parameters[0], depth + 1, pure);
            }
            1 if want == Kind::Num => {
                self.body.operator(0);
                self.acting(want, depth + 1, pure);
                self.leaf(want, depth + 1);
            }
            2 => {
                self.body.open_if();
                self.body.bool(true);
                self.acting(want, depth + 1, pure);
                self.leaf(want, depth + 1);
            }
            3..=4 => {
                self.body.open_when();
                self.body.bool(true);
                self.acting(want, depth + 1, pure);
            }
            _ => {
                self.body.open_when();
                self.acting(Kind::Bool, depth + 1, true);
                self.right(want, depth + 1, pure);
            }
        }
    }

    /// An action, and then a value.
    fn acting(&mut self, want: Kind, depth: usize, pure: bool) {
        self.body.block(2);
        self.body.open_do();
        match self.random.in_hundred(50) {
            true => self.body.display(),
            false => self.body.call(0, 1, 1),
        }
        self.leaf(Kind::Num, depth + 2);
        self.body.open_do();
        self.right(want, depth + 1, pure);
    }

    /// The methods of user instances below the caller's for which this holds.
    fn user_methods(&self, which: impl Fn(&Signature) -> bool) -> Vec<(usize, usize, Signature)> {
        let mut found = Vec::new();
        for (instance, face) in self.faces[..self.own].iter().enumerate() {
            if let Face::User { methods } = face {
                let here = methods.iter().enumerate().filter(|(_, m)| which(m));
                found.extend(here.map(|(number, m)| (instance, number, m.clone())));
            }
        }
        found
    }

    /// An AV method, whether the place is pure or not.
    fn slip_action_value(&mut self, want: Kind, depth: usize, pure: bool) {
        let fitting = self.user_methods(|m| m.kind == AV && m.result == want);
        if fitting.is_empty() {
            return self.slip_action(want, depth, pure);
        }
        let (instance, method, signature) = &fitting[self.random.below(fitting.len())];
        let count = signature.parameters.len();
        self.body.call(*instance as u8, *method as u8, count);
        for parameter in &signature.parameters {
            self.leaf(*parameter, depth + 1);
        }
    }

    /// Two arguments that cannot be taken: unavailable, stuck or of the
    /// wrong kind; the order of the tests decides.
    fn slip_two_arguments(&mut self, want: Kind, depth: usize, pure: bool) {
        let fitting = self.user_methods(|m| m.parameters.len() >= 2);
        if fitting.is_empty() {
            return self.slip_action(want, depth, pure);
        }
        let (instance, method, signature) = &fitting[self.random.below(fitting.len())];
        let count = signature.parameters.len();
        self.body.call(*instance as u8, *method as u8, count);
        for parameter in &signature.parameters {
            match (self.random.below(4), parameter) {
                (0, _) => self.unavailable(),
                (1, _) => self.body.local(99),
                (2, Kind::Num) => self.body.bool(true),
                (2, _) => self.body.number(1),
                _ => self.leaf(*parameter, depth + 1),
            }
        }
    }

    fn unavailable(&mut self) {
        self.body.open_when();
        self.body.bool(false);
        self.body.number(1);
    }

    /// Two Bools that are compared.
    fn slip_bools(&mut self, want: Kind, depth: usize, pure: bool) {
        self.body.open_when();
        self.body.operator(2);
        self.leaf(Kind::Bool, depth + 2);
        self.leaf(Kind::Bool, depth + 2);
        self.right(want, depth + 1, pure);
    }

    /// Lets up to the limit and one more, which is stuck or unavailable.
    fn slip_last_let(&mut self, depth: usize, pure: bool) {
        let count = LIVE_LIMIT - self.locals.len();
        self.body.block(count + 1);
        for _ in 0..count {
            self.body.open_let();
            self.body.number(1);
        }
        self.body.open_let();
        match self.random.below(3) {
            0 => self.body.local(99),
            1 => self.unavailable(),
            _ => self.right(Kind::Num, depth + 1, pure),
        }
    }

    /// Around 16 live locals, or around 64 calls.
    fn slip_limit(&mut self, depth: usize, pure: bool) {
        if depth < 14 && !pure && self.random.in_hundred(40) {
            return self.slip_displays(depth);
        }
        let live = self.locals.len();
        let count = self.random.within(14, 18);
        self.body.block(count);
        for _ in 0..count {
            self.body.open_let();
            self.leaf(Kind::Num, depth + 1);
            self.locals.push(Kind::Num);
        }
        self.locals.truncate(live);
    }

    /// One block holds too few statements for that, so there are three.
    fn slip_displays(&mut self, depth: usize) {
        self.body.block(3);
        for _ in 0..3 {
            let count = self.random.within(20, 22);
            self.body.open_do();
            self.body.block(count);
            for _ in 0..count {
                self.body.open_do();
                self.body.display();
                self.leaf(Kind::Num, depth + 3);
            }
        }
    }
}
