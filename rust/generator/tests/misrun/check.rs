//! The third interpreter's check, straight over the bytes.

use second::{Instance, Kind, MethodKind};

use crate::third::{Face, Third};
use crate::twist::Twist::*;

type Walk<T = Kind> = Result<T, u8>;

struct Place {
    own: usize,
    locals: Vec<Kind>,
}

/// A method by instance and number, or a rule.
#[derive(Clone, Copy)]
enum Item {
    Method(usize, usize),
    Rule(usize),
}

impl Third<'_> {
    /// Number and place, or (0, 0).
    pub fn check(&self) -> (u8, usize) {
        let after = if self.is(PlaceAfterMark) { 2 } else { 0 };
        for (record, item) in self.items() {
            let walked = match item {
                Item::Method(instance, method) => self.walk_method(instance, method),
                Item::Rule(rule) => self.walk_rule(rule),
            };
            if let Err(number) = walked {
                return (number, record + after);
            }
        }
        let most = match self.twist {
            Limit63InTheCheck => 63,
            Limit65InTheCheck => 65,
            _ => 64,
        };
        let counts = self.counts();
        let over = |rule: &usize| self.rule_count(*rule, &counts) > most;
        let mut rules = 0..self.design.rules.len();
        let found = match self.is(LastRuleOverTheLimit) {
            true => rules.rev().find(over),
            false => rules.find(over),
        };
        match found {
            Some(rule) => (27, self.design.rules[rule].record + after),
            None => (0, 0),
        }
    }

    fn items(&self) -> Vec<(usize, Item)> {
        let mut methods = vec![];
        for (number, instance) in self.design.instances.iter().enumerate() {
            if let Instance::User { methods: own } = instance {
                let items = own.iter().enumerate();
                methods.extend(items.map(|(at, m)| (m.record, Item::Method(number, at))));
            }
        }
        let mut rules: Vec<(usize, Item)> = (0..self.design.rules.len())
            .map(|rule| (self.design.rules[rule].record, Item::Rule(rule)))
            .collect();
        if self.is(OnlyScheduledRules) {
            let scheduled = |item: &(usize, Item)| match item.1 {
                Item::Rule(rule) => self.design.schedule.contains(&(rule as u8)),
                Item::Method(..) => true,
            };
            rules.retain(scheduled);
        }
        if self.is(RulesBeforeMethods) {
            return [rules, methods].concat();
        }
        if self.is(MethodsBeforeRules) {
            return [methods, rules].concat();
        }
        let mut all = [rules, methods].concat();
        all.sort_by_key(|(record, _)| *record);
        all
    }

    fn walk_method(&self, instance: usize, method: usize) -> Walk<()> {
        let face = self.face(instance as u8, method as u8).ok_or(99)?;
        let mut place = Place {
            own: instance,
            locals: face.parameters,
        };
        let mut at = face.body.ok_or(99)?;
        let found = self.walk(&mut at, &mut place, face.kind == MethodKind::V)?;
        if found != face.result && !self.is(MethodResultIsNotChecked) {
            return Err(21);
        }
        let counts = self.counts_if(MethodsHaveTheLimit);
        match counts.is_some_and(|counts| counts[instance][method] > 64) {
            true => Err(27),
            false => Ok(()),
        }
    }

    /// The counts where a twist has them in the walk; only calls that name
    /// something are counted then.
    fn counts_if(&self, twist: crate::twist::Twist) -> Option<Vec<Vec<u128>>> {
        self.is(twist).then(|| self.counts())
    }

    fn walk_rule(&self, rule: usize) -> Walk<()> {
        let mut at = self.design.rules[rule].part.start;
        let mut place = Place {
            own: self.design.rules[rule].instance,
            locals: vec![],
        };
        let guard = at;
        if self.walk(&mut at, &mut place, true)? != Kind::Bool {
            return Err(21);
        }
        if self.is(FalseGuardEndsTheRule) && self.file[guard..guard + 2] == [2, 0] {
            return Ok(());
        }
        if self.walk(&mut at, &mut place, false)? != Kind::Void {
            return Err(21);
        }
        let counts = self.counts_if(CallLimitInTheWalk);
        match counts.is_some_and(|counts| self.rule_count(rule, &counts) > 64) {
            true => Err(27),
            false => Ok(()),
        }
    }

    fn walk(&self, at: &mut usize, place: &mut Place, pure: bool) -> Walk {
        match self.byte(at) {
            1 => {
                *at += 4;
                Ok(Kind::Num)
            }
            2 => {
                *at += 1;
                Ok(Kind::Bool)
            }
            3 => {
                let number = usize::from(self.byte(at));
                place.locals.get(number).copied().ok_or(22)
            }
            4 => self.walk_operator(at, place, pure),
            5 => self.walk_if(at, place, pure),
            6 => {
                let guard = *at;
                self.walk_condition(at, place)?;
                let off = self.file[guard..guard + 2] == [2, 0];
                if off && self.is(FalseWhenIsNotWalked) {
                    self.skip(at);
                    return Ok(Kind::Void);
                }
                self.walk(at, place, pure)
            }
            7 => self.walk_block(at, place, pure),
            10 => self.walk_call(at, place, pure),
            _ => {
                if pure {
                    return Err(26);
                }
                match self.walk(at, place, pure)? {
                    Kind::Num => Ok(Kind::Void),
                    _ => Err(21),
                }
            }
        }
    }

    fn walk_condition(&self, at: &mut usize, place: &mut Place) -> Walk<()> {
        match self.walk(at, place, true)? {
            Kind::Bool => Ok(()),
            _ => Err(21),
        }
    }

    fn walk_operator(&self, at: &mut usize, place: &mut Place, pure: bool) -> Walk {
        let byte = self.byte(at);
        let wanted = if byte < 4 { Kind::Num } else { Kind::Bool };
        let mut found = vec![self.walk(at, place, pure)?];
        if byte != 6 {
            found.push(self.walk(at, place, pure)?);
        }
        match found.iter().all(|kind| *kind == wanted) {
            true if byte < 2 => Ok(Kind::Num),
            true => Ok(Kind::Bool),
            false => Err(21),
        }
    }

    fn walk_if(&self, at: &mut usize, place: &mut Place, pure: bool) -> Walk {
        self.walk_condition(at, place)?;
        if self.is(OnlyElseIsWalked) {
            self.skip(at);
            return self.walk(at, place, pure);
        }
        let one = self.walk(at, place, pure)?;
        if self.is(OnlyThenIsWalked) {
            self.skip(at);
            return Ok(one);
        }
        let other = self.walk(at, place, pure)?;
        match one == other || self.is(ArmsMayDiffer) {
            true => Ok(one),
            false => Err(21),
        }
    }

    fn walk_block(&self, at: &mut usize, place: &mut Place, pure: bool) -> Walk {
        let live = place.locals.len();
        let mut last = Kind::Void;
        for _ in 0..self.byte(at) {
            let binds = self.byte(at) == 8;
            last = self.walk(at, place, pure)?;
            if binds {
                if place.locals.len() == 16 {
                    return Err(28);
                }
                place.locals.push(last);
                last = Kind::Void;
            }
        }
        place.locals.truncate(live);
        Ok(last)
    }

    fn walk_call(&self, at: &mut usize, place: &mut Place, pure: bool) -> Walk {
        let (instance, method) = (self.byte(at), self.byte(at));
        let count = usize::from(self.byte(at));
        if usize::from(instance) >= place.own {
            return Err(23);
        }
        let Face {
            kind,
            parameters,
            result,
            ..
        } = self.face(instance, method).ok_or(24)?;
        if count != parameters.len() {
            return Err(25);
        }
        if pure && kind != MethodKind::V {
            return Err(26);
        }
        let mut found = vec![];
        for _ in 0..count {
            found.push(self.walk(at, place, pure)?);
        }
        match found == parameters {
            true => Ok(result),
            false => Err(21),
        }
    }

    /// The calls of each method's body, as wide as the twist has them.
    fn counts(&self) -> Vec<Vec<u128>> {
        let mut counts: Vec<Vec<u128>> = vec![];
        for instance in &self.design.instances {
            let mut own = vec![];
            if let Instance::User { methods } = instance {
                for method in methods {
                    own.push(self.calls_in(&mut method.part.start.clone(), &counts));
                }
            }
            counts.push(own);
        }
        counts
    }

    fn rule_count(&self, rule: usize, counts: &[Vec<u128>]) -> u128 {
        let mut at = self.design.rules[rule].part.start;
        let mut guard = self.calls_in(&mut at, counts);
        if self.is(GuardIsNotCounted) {
            guard = 0;
        }
        self.wrapped(guard + self.calls_in(&mut at, counts))
    }

    fn wrapped(&self, count: u128) -> u128 {
        match self.twist {
            CountWrapsAt32 => count % (1 << 32),
            CountWrapsAt63 => count % (1 << 63),
            CountWrapsAt64 => count % (1 << 64),
            // No design comes near 2^127, one word further.
            _ => count,
        }
    }

    fn calls_in(&self, at: &mut usize, counts: &[Vec<u128>]) -> u128 {
        let count = match self.byte(at) {
            1 => {
                *at += 4;
                0
            }
            2 | 3 => {
                *at += 1;
                0
            }
            4 => {
                let operands = 2 - usize::from(self.byte(at) == 6);
                (0..operands).map(|_| self.calls_in(at, counts)).sum()
            }
            5 => {
                let condition = self.calls_in(at, counts);
                let (one, other) = (self.calls_in(at, counts), self.calls_in(at, counts));
                match self.twist {
                    BothArmsAreCounted => condition + one + other,
                    OnlyThenIsCounted => condition + one,
                    ConditionIsNotCounted => one.max(other),
                    _ => condition + one.max(other),
                }
            }
            6 => self.calls_in(at, counts) + self.calls_in(at, counts),
            7 => {
                let mut sum = 0;
                for _ in 0..self.byte(at) {
                    *at += 1;
                    sum += self.calls_in(at, counts);
                }
                sum
            }
            10 => self.calls_of_call(at, counts),
            _ => self.calls_in(at, counts) + u128::from(!self.is(DisplayIsNotCounted)),
        };
        self.wrapped(count)
    }

    fn calls_of_call(&self, at: &mut usize, counts: &[Vec<u128>]) -> u128 {
        let (instance, method) = (usize::from(self.byte(at)), usize::from(self.byte(at)));
        let parts = self.byte(at);
        let mut arguments: u128 = (0..parts).map(|_| self.calls_in(at, counts)).sum();
        if self.is(ArgumentsAreNotCounted) {
            arguments = 0;
        }
        let body = counts.get(instance).and_then(|own| own.get(method));
        let itself = match body {
            None => !self.is(RegistersAreNotCounted),
            Some(_) => !self.is(UserCallItselfIsNotCounted),
        };
        arguments + u128::from(itself) + body.copied().unwrap_or(0)
    }
}
