//! The third interpreter's clocks, runs and lists.

use std::fmt::Write;

use second::{Instance, MethodKind, Value};

use crate::third::{End, Eval, Frame, Third, DISPLAY};
use crate::twist::Twist::{self, *};

type Calls = [(u8, u8)];
type Pair = ((u8, u8), (u8, u8));

/// What one clock answers, with its fates and displays.
#[derive(Default)]
pub struct Clocked {
    pub fired: bool,
    /// Rule and number.
    pub stuck: Option<(u8, u8)>,
    pub displays: Vec<i32>,
}

/// What a run answers: 0 limit, 100 quiet, or a stuck number with the rule.
pub struct Ran {
    pub ending: u8,
    pub rule: u8,
    pub count: u32,
}

impl Third<'_> {
    /// Guard and body; Ok says whether the value is the right one.
    fn turn(&mut self, rule: usize) -> Eval<bool> {
        self.calls.clear();
        self.writes.clear();
        self.shows.clear();
        (self.count, self.made) = (0, 0);
        let rule = &self.design.rules[rule];
        let mut at = rule.part.start;
        let mut frame = Frame {
            own: rule.instance,
            locals: vec![],
            others: 0,
            callers: 0,
        };
        let holds = self.guard(&mut at, &mut frame)?;
        if !holds {
            return Err(End::Gone);
        }
        if self.is(GuardCallsAreNotCounted) {
            self.count = 0;
        }
        if self.is(GuardCallsDoNotClash) {
            self.calls.clear();
        }
        let value = self.expr(&mut at, &mut frame, false)?;
        if self.is(LimitAfterBody) && self.count > 64 {
            return Err(End::Stuck(27));
        }
        let right = value == Value::Void || self.is(RuleValueIsFree);
        match right || self.is(RuleValueAfterConflicts) {
            true => Ok(right),
            false => Err(End::Stuck(21)),
        }
    }

    fn guard(&mut self, at: &mut usize, frame: &mut Frame) -> Eval<bool> {
        let start = *at;
        let holds = self.condition(at, frame, !self.is(GuardIsNotPure));
        if self.is(GuardKindAfterBody) && matches!(holds, Err(End::Stuck(21))) {
            *at = start;
            self.skip(at);
            self.expr(at, frame, false)?;
        }
        holds
    }

    fn is_register(&self, instance: u8) -> bool {
        let found = self.design.instances.get(usize::from(instance));
        matches!(found, Some(Instance::Register { .. }))
    }

    fn has_ports(&self, (first, second): Pair) -> bool {
        let port = first.1 < 8 && second.1 < 8;
        let with = self.is_register(first.0) || self.is(UserMethodsHavePorts);
        first.0 == second.0 && first != DISPLAY && port && with
    }

    fn inside(&self, pair: Pair) -> bool {
        if !self.has_ports(pair) || self.is(InsideIsMissing) {
            return false;
        }
        let (i, j) = (pair.0 .1 / 2, pair.1 .1 / 2);
        let write_read = |i, j| match self.twist {
            InsideReadOfTheSamePort => i <= j,
            InsideIsReversed => i > j,
            _ => i < j,
        };
        match (pair.0 .1 % 2, pair.1 .1 % 2) {
            (1, 1) => match self.twist {
                InsideWritesOfTheSamePort => true,
                InsideWritesHaveAnOrder => i < j,
                _ => i != j,
            },
            (1, 0) => write_read(i, j),
            (0, 1) => match self.twist {
                InsideHasAnOrder => false,
                InsideIsReversedAfterARead => write_read(i, j),
                _ => write_read(j, i),
            },
            _ => false,
        }
    }

    fn earlier(&self, pair: Pair) -> bool {
        if !self.has_ports(pair) {
            return false;
        }
        let (i, j) = (pair.0 .1 / 2, pair.1 .1 / 2);
        match (pair.0 .1 % 2, pair.1 .1 % 2) {
            (1, 1) => match self.twist {
                EarlierWriteOfTheSamePort => j <= i,
                EarlierWriteIsFree => false,
                EarlierWriteIsReversed => i < j,
                _ => j < i,
            },
            (1, 0) => match self.twist {
                EarlierReadOfTheSamePortIsFree => j < i,
                EarlierReadOfAnyPort => true,
                EarlierReadIsReversed => i <= j,
                _ => j <= i,
            },
            (0, 1) => match self.twist {
                ReadThenWriteOfTheSamePort => j <= i,
                ReadThenWriteIsFree => false,
                ReadThenWriteIsReversed => i < j,
                _ => j < i,
            },
            _ => false,
        }
    }

    fn hardware(&self, (first, second): Pair) -> bool {
        let same = match self.is(HardwareOfAnyInstance) {
            true => first.1 == second.1,
            false => first == second,
        };
        if !same || first == DISPLAY {
            return same;
        }
        let Some(face) = self.face(first.0, first.1) else {
            return false;
        };
        let value = face.kind == MethodKind::V;
        match self.twist {
            HardwareFreesAllValues => !value,
            HardwareFreesNone => true,
            HardwareFreesActionsWithout => !face.parameters.is_empty(),
            HardwareFreesRegisters if self.is_register(first.0) => false,
            _ => !(value && face.parameters.is_empty()),
        }
    }

    fn within<'c>(calls: &'c Calls) -> impl Iterator<Item = Pair> + 'c {
        let pairs =
            move |second: usize| (0..second).map(move |first| (calls[first], calls[second]));
        (0..calls.len()).flat_map(pairs)
    }

    fn across<'c>(earlier: &'c Calls, calls: &'c Calls) -> impl Iterator<Item = Pair> + 'c {
        let pairs = move |second: &'c (u8, u8)| earlier.iter().map(move |first| (*first, *second));
        calls.iter().flat_map(pairs)
    }

    /// The fate of a rule that is available.
    fn fate(&self, earlier: &Calls, calls: &Calls) -> u8 {
        let first_of = |tests: &[(bool, u8)]| {
            let found = tests.iter().find(|(applies, _)| *applies);
            found.map_or(0, |(_, fate)| *fate)
        };
        let of_pair = |pair: Pair, own: bool| match own {
            true => first_of(&[(self.inside(pair), 2), (self.hardware(pair), 4)]),
            false => first_of(&[(self.earlier(pair), 3), (self.hardware(pair), 4)]),
        };
        let own = Self::within(calls).map(|pair| (pair, true));
        let others = Self::across(earlier, calls).map(|pair| (pair, false));
        let decided = |pairs: &mut dyn Iterator<Item = (Pair, bool)>| {
            let mut fates = pairs.map(|(pair, own)| of_pair(pair, own));
            fates.find(|fate| *fate != 0).unwrap_or(0)
        };
        if self.is(FirstPairDecides) {
            return decided(&mut own.chain(others));
        }
        if self.is(EarlierPairsFirst) {
            return decided(&mut others.chain(own));
        }
        let inside = Self::within(calls).any(|pair| self.inside(pair));
        let before = Self::across(earlier, calls).any(|pair| self.earlier(pair));
        let own = !self.is(HardwareAcrossOnly) && Self::within(calls).any(|p| self.hardware(p));
        let hardware = own
            || (!self.is(HardwareInsideOnly)
                && Self::across(earlier, calls).any(|pair| self.hardware(pair)));
        match self.twist {
            EarlierBeforeInside => first_of(&[(before, 3), (inside, 2), (hardware, 4)]),
            HardwareBeforeEarlier => first_of(&[(inside, 2), (hardware, 4), (before, 3)]),
            _ => first_of(&[(inside, 2), (before, 3), (hardware, 4)]),
        }
    }

    /// One rule's turn to its fate, or a stuck number.
    fn fate_of(&mut self, rule: usize, earlier: &mut Vec<(u8, u8)>) -> Result<u8, u8> {
        let turned = self.turn(rule);
        let fate = match turned {
            Err(End::Stuck(number)) => return Err(number),
            Err(End::Gone) if self.is(ConflictsBeforeUnavailable) => {
                match self.fate(earlier, &self.calls) {
                    0 => 1,
                    fate => fate,
                }
            }
            Err(End::Gone) => 1,
            Ok(_) => self.fate(earlier, &self.calls),
        };
        if fate == 0 && matches!(turned, Ok(false)) {
            return Err(21);
        }
        let kept = match fate {
            0 => true,
            1 => self.is(UnavailableCallsAreKept),
            _ => self.is(HeldBackCallsAreKept),
        };
        if kept {
            earlier.extend(&self.calls);
        }
        Ok(fate)
    }

    pub fn clock(&mut self, state: &mut [i32], fates: &mut [u8]) -> Clocked {
        let schedule = self.design.schedule.clone();
        let before = state.to_vec();
        let mut clocked = Clocked::default();
        let mut earlier = vec![];
        match self.twist {
            NotReachedStays => {}
            FatesPastTheScheduleAreSet => fates.fill(6),
            _ => fates[..schedule.len()].fill(6),
        }
        for (entry, rule) in schedule.iter().enumerate() {
            let by_rule = self.is(FatesByRule);
            let place = if by_rule { usize::from(*rule) } else { entry };
            self.seen = match self.is(ReadsSeeTheClocksStart) {
                true => before.clone(),
                false => state.to_vec(),
            };
            match self.fate_of(usize::from(*rule), &mut earlier) {
                Ok(fate) => fates[place] = fate,
                Err(number) => {
                    fates[place] = 5;
                    let by_entry = self.is(StuckNamesTheEntry);
                    let named = if by_entry { entry as u8 } else { *rule };
                    clocked.stuck = Some((named, number));
                    return self.stuck(clocked, state, &before);
                }
            }
            if fates[place] == 0 {
                clocked.fired |= !self.writes.is_empty() || !self.is(FiringNeedsAWrite);
                clocked.displays.extend(&self.shows);
                for (instance, value) in &self.writes {
                    state[usize::from(*instance)] = *value;
                }
            }
        }
        clocked
    }

    fn stuck(&self, mut clocked: Clocked, state: &mut [i32], before: &[i32]) -> Clocked {
        if !self.is(StuckKeepsTheState) {
            state.copy_from_slice(before);
        }
        if self.is(StuckDropsDisplays) {
            clocked.displays.clear();
        }
        if self.is(StuckRuleDisplays) {
            clocked.displays.extend(&self.shows);
        }
        clocked
    }

    pub fn start(&self, state: &mut [i32]) {
        for (entry, instance) in state.iter_mut().zip(&self.design.instances) {
            match instance {
                Instance::Register { start, .. } => *entry = *start,
                Instance::User { .. } if self.is(UserEntryIsSet) => *entry = 0,
                Instance::User { .. } => {}
            }
        }
    }

    /// `lines` gets a line for each clock.
    pub fn run(&mut self, state: &mut [i32], n: u32, lines: &mut String) -> Ran {
        let mut fates = vec![0; 64];
        let mut ran = Ran {
            ending: 0,
            rule: 0,
            count: 0,
        };
        if self.is(EmptyScheduleIsLimit) && self.design.schedule.is_empty() {
            return ran;
        }
        for clock in 0..n {
            let clocked = self.clock(state, &mut fates);
            self.line(clock, &clocked, &fates, lines);
            if let Some((rule, number)) = clocked.stuck {
                let fired = fates.contains(&0) && self.is(StuckClockCounts);
                ran.count += u32::from(fired);
                (ran.ending, ran.rule) = (number, rule);
                return ran;
            }
            if !clocked.fired {
                ran.count += u32::from(self.is(QuietClockCounts));
                let last = clock + 1 == n && self.is(QuietAfterLimit);
                ran.ending = if last { 0 } else { 100 };
                return ran;
            }
            ran.count += 1;
        }
        ran
    }

    fn line(&self, clock: u32, clocked: &Clocked, fates: &[u8], lines: &mut String) {
        let quiet = clocked.stuck.is_none() && !clocked.fired;
        let hidden = (quiet && self.is(NoLineForTheQuietClock))
            || (clocked.stuck.is_some() && self.is(NoLineForTheStuckClock));
        if hidden {
            return;
        }
        let clock = clock + u32::from(self.is(ClocksFrom1));
        let entries = &fates[..self.design.schedule.len()];
        let mut letters: Vec<String> = entries
            .iter()
            .map(|fate| "FUAEHS-"[usize::from(*fate)..=usize::from(*fate)].to_string())
            .collect();
        if letters.is_empty() && !self.is(NoDot) {
            letters.push(".".to_string());
        }
        let between = if self.is(LettersAreParted) { " " } else { "" };
        let _ = write!(lines, "{clock} {}", letters.join(between));
        let dropped = clocked.stuck.is_some() && self.is(StuckDisplaysAreNotPrinted);
        for display in clocked.displays.iter().filter(|_| !dropped) {
            let _ = write!(lines, " {display}");
        }
        self.end(lines);
    }

    fn end(&self, lines: &mut String) {
        lines.push_str(if self.is(SpaceAtTheEnd) { " \n" } else { "\n" });
    }

    /// The whole list for these four bytes of clock count.
    pub fn list(&mut self, count: [u8; 4]) -> String {
        let n = match self.is(CountIsBigEndian) {
            true => u32::from_be_bytes(count).min(12),
            false => u32::from_le_bytes(count),
        };
        let mut state = vec![0; self.design.instances.len()];
        self.start(&mut state);
        let mut lines = String::new();
        let ran = self.run(&mut state, n, &mut lines);
        let count = ran.count;
        let _ = match ran.ending {
            0 => write!(lines, "LIMIT {count}"),
            100 => write!(lines, "QUIET {count}"),
            number if self.is(RuleIsNotPrinted) => write!(lines, "STUCK {count} {number}"),
            number => write!(lines, "STUCK {count} {} {number}", ran.rule),
        };
        for (value, instance) in state.iter().zip(&self.design.instances) {
            let _ = match instance {
                Instance::User { .. } if !self.is(UserValueIsPrinted) => write!(lines, " -"),
                _ => write!(lines, " {value}"),
            };
        }
        self.end(&mut lines);
        lines
    }
}

/// A refused file's list.
pub fn refused(number: u8, place: usize, twist: Twist) -> String {
    let more = if twist == PlaceWithTheCount { 4 } else { 0 };
    format!("REFUSED {number} {}\n", place + more)
}
