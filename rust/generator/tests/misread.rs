//! Wrong readers, each with one misreading of document 01: the files have
//! to tell every one of them from the right one. The reader here is a third
//! one, written flat; without a twist it must agree with the second program.

use generator::{nth_file, FAMILIES};

#[derive(Clone, Copy, Debug, PartialEq, Eq)]
enum Twist {
    None,
    PlaceAfterMark,
    OddByteIs3,
    CutIs9,
    NinePlaceIs0,
    SizeLast,
    SizeLess,
    SizeMore,
    NoInstanceIsUser,
    AnyUserWillDo,
    FiveBeforeFour,
    FiveAfterPorts,
    MethodsPerInstance,
    Instances63,
    Instances65,
    Methods127,
    Methods129,
    Rules63,
    Rules65,
    Ports0,
    Ports5,
    PortsAfterStart,
    KindTestedWithResult,
    KindAndResultAfterCount,
    ValueMayBeVoid,
    ActionMayHaveResult,
    ActionValueMayBeVoid,
    Parameters5,
    ParameterKind0,
    ParameterKind3,
    ParameterKindsTogether,
    LengthBigEndian,
    LengthIsOneByte,
    Length0Is6,
    Length0Reads,
    GuardOnlyReads,
    BodyJudgedBeforeCut,
    BodyMayRunOn,
    LeftOverReads,
    StatementHasDepth,
    RuleStartsAtDepth2,
    BodyDeeperThanGuard,
    Depth15,
    Depth17,
    ArgumentsNotDeeper,
    BlockOf0,
    BlockOf33,
    BlockOf31,
    Arguments5,
    Arguments3,
    Bool2,
    Operator7,
    NotHasTwoOperands,
    StatementTag10,
    TagC,
    LocalOver15,
    InstanceOver63,
    MethodOver127,
    Schedule63,
    Schedule65,
    CountTestedAfterEntries,
    EntriesAllReadFirst,
    EntryMayBeMissing,
    EntryMayBeTwice,
    RuleNumberOneTooMany,
    AfterScheduleIs2,
    AfterScheduleIs3,
    AfterScheduleReads,
    AfterSchedulePlaceIsRecord,
    SecondScheduleReads,
}

use Twist as T;

struct Flat<'a> {
    file: &'a [u8],
    at: usize,
    record: usize,
    twist: Twist,
    users: Vec<bool>,
    methods: usize,
    methods_here: usize,
    rules: usize,
    seen: Vec<u8>,
}

/// Number and place, or (0, 0) for a file that reads.
fn answer(file: &[u8], twist: Twist) -> (u8, usize) {
    let mut flat = Flat {
        file,
        at: 0,
        record: 0,
        twist,
        users: vec![],
        methods: 0,
        methods_here: 0,
        rules: 0,
        seen: vec![],
    };
    let limit = 32_768 + flat.is(T::SizeMore) as usize - flat.is(T::SizeLess) as usize;
    let too_long = file.len() > limit;
    if too_long && twist != T::SizeLast {
        return (1, 0);
    }
    match flat.all() {
        Err(answer) => answer,
        Ok(()) if too_long => (1, 0),
        Ok(()) => (0, 0),
    }
}

type Step<V = ()> = Result<V, (u8, usize)>;

impl Flat<'_> {
    fn is(&self, twist: Twist) -> bool {
        self.twist == twist
    }

    fn no<V>(&self, number: u8) -> Step<V> {
        let after = if self.is(T::PlaceAfterMark) && number != 2 {
            2
        } else {
            0
        };
        Err((number, self.record + after))
    }

    fn all(&mut self) -> Step {
        loop {
            self.record = self.at;
            if self.at == self.file.len() {
                let place = if self.is(T::NinePlaceIs0) { 0 } else { self.at };
                return Err((9, place));
            }
            if self.file.len() - self.at == 1 && self.is(T::OddByteIs3) {
                return Err((3, self.at));
            }
            let mark = self.take(2)?;
            match &mark[..] {
                b"RG" | b"CR" | b"UM" => self.instance(mark[0], mark[1])?,
                b"MD" => self.method()?,
                b"RL" => self.rule()?,
                b"SC" => return self.schedule(),
                _ => return self.no(3),
            }
        }
    }

    fn take(&mut self, length: usize) -> Step<Vec<u8>> {
        match self.file.get(self.at..self.at + length) {
            Some(bytes) => {
                self.at += length;
                Ok(bytes.to_vec())
            }
            None if self.is(T::CutIs9) => Err((9, self.file.len())),
            None => Err((2, self.record)),
        }
    }

    fn byte(&mut self) -> Step<u8> {
        Ok(self.take(1)?[0])
    }

    fn instance(&mut self, first: u8, second: u8) -> Step {
        let most = 64 + self.is(T::Instances65) as usize - self.is(T::Instances63) as usize;
        let over = self.users.len() >= most;
        let concurrent = first == b'C';
        if over && !(concurrent && self.is(T::FiveAfterPorts)) {
            return self.no(5);
        }
        if concurrent {
            let ports = self.byte()?;
            let low = 1 - self.is(T::Ports0) as u8;
            let high = 4 + self.is(T::Ports5) as u8;
            if self.is(T::PortsAfterStart) {
                self.take(4)?;
                self.at -= 4;
            }
            if ports < low || ports > high {
                return self.no(6);
            }
            if over {
                return self.no(5);
            }
        }
        if second != b'M' {
            self.take(4)?;
        }
        self.users.push(second == b'M');
        self.methods_here = 0;
        Ok(())
    }

    fn owner(&self, over: bool) -> Step {
        let user = match self.users.last() {
            None => self.is(T::NoInstanceIsUser),
            Some(_) if self.is(T::AnyUserWillDo) => self.users.contains(&true),
            Some(user) => *user,
        };
        match (user, over) {
            (false, true) if self.is(T::FiveBeforeFour) => self.no(5),
            (false, _) => self.no(4),
            (true, true) => self.no(5),
            (true, false) => Ok(()),
        }
    }

    fn method(&mut self) -> Step {
        let most = 128 + self.is(T::Methods129) as usize - self.is(T::Methods127) as usize;
        let counted = match self.is(T::MethodsPerInstance) {
            true => self.methods_here,
            false => self.methods,
        };
        self.owner(counted >= most)?;
        self.head()?;
        self.body(1)?;
        self.methods += 1;
        self.methods_here += 1;
        Ok(())
    }

    fn head(&mut self) -> Step {
        let kind = self.byte()?;
        if kind > 2 && !self.is(T::KindTestedWithResult) {
            return self.no(6);
        }
        let result = self.byte()?;
        let agree = match (kind, result) {
            (0, 0) => self.is(T::ValueMayBeVoid),
            (2, 0) => self.is(T::ActionValueMayBeVoid),
            (1, 1 | 2) => self.is(T::ActionMayHaveResult),
            (0..=2, 0..=2) => true,
            _ => false,
        };
        if !agree && !self.is(T::KindAndResultAfterCount) {
            return self.no(6);
        }
        let count = self.byte()?;
        if !agree || count > 4 + self.is(T::Parameters5) as u8 {
            return self.no(6);
        }
        let mut kinds = vec![];
        for _ in 0..count {
            kinds.push(self.byte()?);
            if !self.is(T::ParameterKindsTogether) {
                self.parameters(&kinds)?;
            }
        }
        self.parameters(&kinds)
    }

    fn parameters(&self, kinds: &[u8]) -> Step {
        let low = 1 - self.is(T::ParameterKind0) as u8;
        let high = 2 + self.is(T::ParameterKind3) as u8;
        match kinds.iter().all(|kind| (low..=high).contains(kind)) {
            true => Ok(()),
            false => self.no(6),
        }
    }

    fn rule(&mut self) -> Step {
        let most = 64 + self.is(T::Rules65) as usize - self.is(T::Rules63) as usize;
        self.owner(self.rules >= most)?;
        self.body(2)?;
        self.rules += 1;
        Ok(())
    }

    /// The length and this many expressions.
    fn body(&mut self, expressions: usize) -> Step {
        let bytes = self.take(2)?;
        let length = match self.twist {
            T::LengthBigEndian => usize::from(bytes[0]) * 256 + usize::from(bytes[1]),
            T::LengthIsOneByte => usize::from(bytes[0]),
            _ => usize::from(bytes[0]) + 256 * usize::from(bytes[1]),
        };
        if length == 0 && self.is(T::Length0Is6) {
            return self.no(6);
        }
        if length == 0 && self.is(T::Length0Reads) {
            return Ok(());
        }
        let start = self.at;
        let cut = self.file.len() < start + length;
        if cut && !self.is(T::BodyJudgedBeforeCut) {
            return self.take(length).map(|_| ());
        }
        let end = match self.is(T::BodyMayRunOn) || cut {
            true => self.file.len(),
            false => start + length,
        };
        self.at = start + length;
        match self.expressions(&self.file[start..end], length, expressions) {
            Some(()) if cut => Err((2, self.record)),
            Some(()) => Ok(()),
            None => self.no(7),
        }
    }

    fn expressions(&self, bytes: &[u8], length: usize, count: usize) -> Option<()> {
        let mut rest = bytes;
        for number in 0..count {
            if number == 1 && rest.is_empty() && self.is(T::GuardOnlyReads) {
                return Some(());
            }
            let deeper = (count == 2 && self.is(T::RuleStartsAtDepth2))
                || (number == 1 && self.is(T::BodyDeeperThanGuard));
            self.expr(&mut rest, 1 + deeper as usize)?;
        }
        let used = bytes.len() - rest.len();
        let fits = used == length
            || (used < length && self.is(T::LeftOverReads))
            || (used > length && self.is(T::BodyMayRunOn));
        fits.then_some(())
    }

    fn expr(&self, rest: &mut &[u8], depth: usize) -> Option<()> {
        let deepest = 16 + self.is(T::Depth17) as usize - self.is(T::Depth15) as usize;
        if depth > deepest {
            return None;
        }
        let tag = next(rest)?;
        let parts = match tag {
            1 => return (0..4).try_for_each(|_| next(rest).map(|_| ())),
            2 => return upto(next(rest)?, 0, 1 + self.is(T::Bool2) as u8),
            3 => {
                return upto(
                    next(rest)?,
                    0,
                    if self.is(T::LocalOver15) { 15 } else { 255 },
                )
            }
            4 => match next(rest)? {
                6 if !self.is(T::NotHasTwoOperands) => 1,
                7 if !self.is(T::Operator7) => return None,
                0..=7 => 2,
                _ => return None,
            },
            5 => 3,
            6 => 2,
            7 => return self.statements(rest, depth),
            10 => self.call(rest)?,
            11 => 1,
            12 if self.is(T::TagC) => 1,
            _ => return None,
        };
        let inner = depth + !(tag == 10 && self.is(T::ArgumentsNotDeeper)) as usize;
        (0..parts).try_for_each(|_| self.expr(rest, inner))
    }

    fn call(&self, rest: &mut &[u8]) -> Option<u8> {
        upto(
            next(rest)?,
            0,
            if self.is(T::InstanceOver63) { 63 } else { 255 },
        )?;
        upto(
            next(rest)?,
            0,
            if self.is(T::MethodOver127) { 127 } else { 255 },
        )?;
        let count = next(rest)?;
        let most = 4 + self.is(T::Arguments5) as u8 - self.is(T::Arguments3) as u8;
        upto(count, 0, most)?;
        Some(count)
    }

    fn statements(&self, rest: &mut &[u8], depth: usize) -> Option<()> {
        let count = next(rest)?;
        let low = 1 - self.is(T::BlockOf0) as u8;
        let high = 32 + self.is(T::BlockOf33) as u8 - self.is(T::BlockOf31) as u8;
        upto(count, low, high)?;
        for _ in 0..count {
            upto(next(rest)?, 8, 9 + self.is(T::StatementTag10) as u8)?;
            self.expr(rest, depth + 1 + self.is(T::StatementHasDepth) as usize)?;
        }
        Some(())
    }

    fn schedule(&mut self) -> Step {
        let count = self.byte()?;
        let most = 64 + self.is(T::Schedule65) as u8 - self.is(T::Schedule63) as u8;
        if count > most && !self.is(T::CountTestedAfterEntries) {
            return self.no(6);
        }
        if self.is(T::EntriesAllReadFirst) {
            self.take(usize::from(count))?;
            self.at -= usize::from(count);
        }
        for _ in 0..count {
            let entry = self.byte()?;
            let rules = self.rules + self.is(T::RuleNumberOneTooMany) as usize;
            let missing = usize::from(entry) >= rules && !self.is(T::EntryMayBeMissing);
            let twice = self.seen.contains(&entry) && !self.is(T::EntryMayBeTwice);
            if missing || twice {
                return self.no(8);
            }
            self.seen.push(entry);
        }
        if count > most {
            return self.no(6);
        }
        self.after()
    }

    fn after(&mut self) -> Step {
        let rest = &self.file[self.at..];
        match self.twist {
            _ if rest.is_empty() => Ok(()),
            T::AfterScheduleReads => Ok(()),
            T::AfterScheduleIs2 if rest.len() == 1 => Err((2, self.at)),
            T::AfterScheduleIs3 if !b"RGCRUMMDRLSC".chunks(2).any(|m| rest.starts_with(m)) => {
                Err((3, self.at))
            }
            T::AfterSchedulePlaceIsRecord => Err((4, self.record)),
            T::SecondScheduleReads if rest.starts_with(b"SC\0") && rest.len() == 3 => Ok(()),
            _ => Err((4, self.at)),
        }
    }
}

fn next(rest: &mut &[u8]) -> Option<u8> {
    let (&first, others) = rest.split_first()?;
    *rest = others;
    Some(first)
}

fn upto(byte: u8, low: u8, high: u8) -> Option<()> {
    (low..=high).contains(&byte).then_some(())
}

const TWISTS: [Twist; 69] = [
    T::PlaceAfterMark,
    T::OddByteIs3,
    T::CutIs9,
    T::NinePlaceIs0,
    T::SizeLast,
    T::SizeLess,
    T::SizeMore,
    T::NoInstanceIsUser,
    T::AnyUserWillDo,
    T::FiveBeforeFour,
    T::FiveAfterPorts,
    T::MethodsPerInstance,
    T::Instances63,
    T::Instances65,
    T::Methods127,
    T::Methods129,
    T::Rules63,
    T::Rules65,
    T::Ports0,
    T::Ports5,
    T::PortsAfterStart,
    T::KindTestedWithResult,
    T::KindAndResultAfterCount,
    T::ValueMayBeVoid,
    T::ActionMayHaveResult,
    T::ActionValueMayBeVoid,
    T::Parameters5,
    T::ParameterKind0,
    T::ParameterKind3,
    T::ParameterKindsTogether,
    T::LengthBigEndian,
    T::LengthIsOneByte,
    T::Length0Is6,
    T::Length0Reads,
    T::GuardOnlyReads,
    T::BodyJudgedBeforeCut,
    T::BodyMayRunOn,
    T::LeftOverReads,
    T::StatementHasDepth,
    T::RuleStartsAtDepth2,
    T::BodyDeeperThanGuard,
    T::Depth15,
    T::Depth17,
    T::ArgumentsNotDeeper,
    T::BlockOf0,
    T::BlockOf33,
    T::BlockOf31,
    T::Arguments5,
    T::Arguments3,
    T::Bool2,
    T::Operator7,
    T::NotHasTwoOperands,
    T::StatementTag10,
    T::TagC,
    T::LocalOver15,
    T::InstanceOver63,
    T::MethodOver127,
    T::Schedule63,
    T::Schedule65,
    T::CountTestedAfterEntries,
    T::EntriesAllReadFirst,
    T::EntryMayBeMissing,
    T::EntryMayBeTwice,
    T::RuleNumberOneTooMany,
    T::AfterScheduleIs2,
    T::AfterScheduleIs3,
    T::AfterScheduleReads,
    T::AfterSchedulePlaceIsRecord,
    T::SecondScheduleReads,
];

fn right(file: &[u8]) -> (u8, usize) {
    match second::read(file) {
        Ok(_) => (0, 0),
        Err(refusal) => (refusal.number, refusal.place),
    }
}

/// The twists that none of the files tells from the right reader.
struct Left {
    twists: Vec<Twist>,
}

impl Left {
    fn all() -> Self {
        Left {
            twists: TWISTS.to_vec(),
        }
    }

    fn show(&mut self, file: &[u8]) {
        let right = right(file);
        assert_eq!(answer(file, T::None), right, "{file:02X?}");
        self.twists.retain(|twist| answer(file, *twist) == right);
    }
}

#[test]
fn families_tell_every_twist() {
    let mut left = Left::all();
    for (_, family) in FAMILIES {
        family().iter().for_each(|file| left.show(file));
    }
    assert!(left.twists.is_empty(), "{:?}", left.twists);
}

#[test]
fn random_files_tell_every_twist() {
    let mut left = Left::all();
    for index in 0..100_000 {
        left.show(&nth_file(11, index));
    }
    assert!(left.twists.is_empty(), "{:?}", left.twists);
}
