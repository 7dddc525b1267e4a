//! Random designs that read.

use crate::random::Random;
use crate::record::{Body, Plan, Record};
use crate::writer::{Care, Face, Kind, Signature, Writer, A, AV, V};

/// The calls a rule may record.
const CALL_LIMIT: usize = 64;

/// How large a design is to be; each number is the most there may be.
#[derive(Clone, Copy, Debug)]
pub struct Size {
    pub groups: usize,
    pub registers: usize,
    pub methods: usize,
    pub rules: usize,
    pub care: Care,
}

impl Size {
    pub fn tiny() -> Self {
        let care = Care {
            room: 2,
            deepest: 4,
            slips: 0,
            port: None,
            for_running: false,
        };
        Size {
            groups: 2,
            registers: 2,
            methods: 1,
            rules: 2,
            care,
        }
    }

    pub fn small() -> Self {
        let care = Care {
            room: 6,
            deepest: 8,
            slips: 0,
            port: None,
            for_running: false,
        };
        Size {
            groups: 3,
            registers: 2,
            methods: 2,
            rules: 2,
            care,
        }
    }

    pub fn middle() -> Self {
        let care = Care {
            room: 16,
            deepest: 16,
            slips: 0,
            port: None,
            for_running: false,
        };
        Size {
            groups: 4,
            registers: 3,
            methods: 3,
            rules: 4,
            care,
        }
    }

    pub fn with_slips(mut self, slips: usize) -> Self {
        self.care.slips = slips;
        self
    }
}

struct Maker<'a> {
    random: &'a mut Random,
    size: Size,
    faces: Vec<Face>,
    records: Vec<Record>,
    rules: usize,
}

/// A design that reads; without slips it passes the check as well.
pub fn design(random: &mut Random, size: Size) -> Plan {
    let mut maker = Maker {
        random,
        size,
        faces: Vec::new(),
        records: Vec::new(),
        rules: 0,
    };
    let groups = maker.random.within(1, size.groups);
    for _ in 0..groups {
        maker.group();
    }
    let schedule = schedule(maker.random, maker.rules);
    maker.records.push(Record::schedule(schedule));
    Plan::new(maker.records)
}

impl Maker<'_> {
    /// Some registers, then a UM with methods and rules.
    fn group(&mut self) {
        for _ in 0..self.random.within(0, self.size.registers) {
            self.register();
        }
        self.records.push(Record::User);
        let methods = Vec::new();
        self.faces.push(Face::User { methods });
        let mut methods = self.random.within(0, self.size.methods);
        let mut rules = self.random.within(0, self.size.rules);
        while methods + rules > 0 {
            if self.random.below(methods + rules) < methods {
                methods -= 1;
                self.method();
            } else {
                rules -= 1;
                self.rule();
            }
        }
    }

    fn register(&mut self) {
        let start = self.random.number();
        if self.random.in_hundred(50) {
            self.records.push(Record::Register { start });
            self.faces.push(Face::Register { ports: 1 });
        } else {
            let ports = self.random.within(1, 4) as u8;
            self.records.push(Record::Concurrent { ports, start });
            self.faces.push(Face::Register { ports });
        }
    }

    fn writer(&mut self, locals: Vec<Kind>, calls: usize) -> Writer<'_> {
        let mut care = self.size.care;
        care.room = self.random.within(0, care.room);
        Writer {
            random: self.random,
            own: self.faces.len() - 1,
            faces: &self.faces,
            care,
            locals,
            calls,
            body: Body::new(),
        }
    }

    fn method(&mut self) {
        let kind = self.random.pick(&[V, V, A, A, AV]);
        let result = match kind {
            A => Kind::Void,
            _ => self.random.pick(&[Kind::Num, Kind::Num, Kind::Bool]),
        };
        let count = self.random.pick(&[0, 0, 0, 1, 1, 1, 2, 2, 3, 4]);
        let parameters: Vec<Kind> = (0..count)
            .map(|_| self.random.pick(&[Kind::Num, Kind::Num, Kind::Bool]))
            .collect();
        // Methods stay well below the limit, so that rules may call them.
        let calls = self.random.within(2, CALL_LIMIT / 4);
        let mut writer = self.writer(parameters.clone(), calls);
        writer.expression(result, 1, kind == V);
        let left = writer.calls;
        let body = writer.body;
        let bytes: Vec<u8> = parameters.iter().map(|kind| kind_byte(*kind)).collect();
        let record = Record::method(kind, kind_byte(result), &bytes, body);
        self.records.push(record);
        let signature = Signature {
            kind,
            result,
            parameters,
            calls: calls - left,
        };
        if let Some(Face::User { methods }) = self.faces.last_mut() {
            methods.push(signature);
        }
    }

    fn rule(&mut self) {
        let plain = self.random.in_hundred(40);
        let mut writer = self.writer(Vec::new(), CALL_LIMIT);
        if plain {
            writer.body.bool(true);
        } else {
            writer.expression(Kind::Bool, 1, true);
        }
        writer.expression(Kind::Void, 1, false);
        let body = writer.body;
        self.records.push(Record::rule(body));
        self.rules += 1;
    }
}

fn kind_byte(kind: Kind) -> u8 {
    match kind {
        Kind::Void => 0,
        Kind::Num => 1,
        Kind::Bool => 2,
    }
}

/// A schedule of one shape or another over this many rules.
pub fn schedule(random: &mut Random, rules: usize) -> Vec<u8> {
    let mut all: Vec<u8> = (0..rules as u8).collect();
    match random.below(10) {
        0..=3 => {}
        4 => all.reverse(),
        5..=6 => random.shuffle(&mut all),
        7 => all.retain(|_| random.in_hundred(60)),
        8 => {
            random.shuffle(&mut all);
            all.truncate(1);
        }
        _ => {
            random.shuffle(&mut all);
            all.truncate(random.below(rules + 1));
        }
    }
    all
}
