//! Random designs whose rules fire, see what others wrote, and clash.

use crate::design::schedule;
use crate::parts::{
    act, acts, bind, block, call, choose, display, equal, less, local, never, num, plus, read,
    times, truth, void, when, write,
};
use crate::random::Random;
use crate::record::{Body, Plan, Record};
use crate::writer::{Care, Face, Kind, Signature, Writer, A, AV, V};

const CALL_LIMIT: usize = 64;
const LIVE_LIMIT: usize = 16;
const NUM: u8 = 1;
const BOOL: u8 = 2;

/// How large a design is to be; each number is the most there may be.
#[derive(Clone, Copy, Debug)]
pub struct Mood {
    pub registers: usize,
    pub libraries: usize,
    pub rules: usize,
    pub statements: usize,
    /// Parts with parts of their own that one expression has at most.
    pub room: usize,
    /// Rules are filled up with calls to about the limit.
    pub brink: bool,
    /// Slips in a thousand expressions.
    pub slips: usize,
}

impl Mood {
    pub fn small() -> Self {
        Mood {
            registers: 3,
            libraries: 1,
            rules: 4,
            statements: 3,
            room: 4,
            brink: false,
            slips: 0,
        }
    }

    pub fn middle() -> Self {
        Mood {
            registers: 5,
            libraries: 3,
            rules: 9,
            statements: 5,
            room: 4,
            brink: false,
            slips: 0,
        }
    }

    /// Many short rules on few registers.
    pub fn crowded() -> Self {
        Mood {
            registers: 6,
            libraries: 1,
            rules: 64,
            statements: 2,
            room: 3,
            brink: false,
            slips: 0,
        }
    }

    /// Rules that come near the limit of calls.
    pub fn busy() -> Self {
        Mood {
            registers: 4,
            libraries: 4,
            rules: 3,
            statements: 15,
            room: 60,
            brink: false,
            slips: 0,
        }
    }

    /// Rules at the limit of calls or just past it.
    pub fn brink() -> Self {
        Mood {
            rules: 3,
            statements: 4,
            room: 6,
            brink: true,
            ..Mood::middle()
        }
    }

    pub fn with_slips(mut self, slips: usize) -> Self {
        self.slips = slips;
        self
    }
}

struct Maker<'a> {
    random: &'a mut Random,
    mood: Mood,
    faces: Vec<Face>,
    records: Vec<Record>,
    /// The port that each rule keeps to.
    ports: Vec<u8>,
}

/// A design that reads; without slips it passes the check as well, but for
/// the limit of calls when it is at the brink.
pub fn lively(random: &mut Random, mood: Mood) -> Plan {
    let mut maker = Maker {
        random,
        mood,
        faces: Vec::new(),
        records: Vec::new(),
        ports: Vec::new(),
    };
    maker.registers(1);
    for _ in 0..maker.random.within(0, mood.libraries) {
        maker.registers(0);
        maker.library();
    }
    let rules = maker.random.within(1, mood.rules);
    let mut left = rules;
    while left > 0 {
        let here = maker.random.within(1, left);
        left -= here;
        maker.user();
        (0..here).for_each(|_| maker.rule());
    }
    let entries = maker.schedule();
    maker.records.push(Record::schedule(entries));
    Plan::new(maker.records)
}

impl Maker<'_> {
    fn registers(&mut self, least: usize) {
        let most = self.mood.registers.max(least);
        for _ in 0..self.random.within(least, most) {
            let start = self.random.number();
            let ports = match self.random.below(10) {
                0..=2 => 1,
                3..=6 => 2,
                7..=8 => 3,
                _ => 4,
            };
            self.records.push(match ports {
                1 if self.random.in_hundred(80) => Record::Register { start },
                _ => Record::Concurrent { ports, start },
            });
            self.faces.push(Face::Register { ports });
        }
    }

    fn user(&mut self) {
        self.records.push(Record::User);
        let methods = Vec::new();
        self.faces.push(Face::User { methods });
    }

    /// A UM with some methods, each about one register and one port.
    fn library(&mut self) {
        self.user();
        for _ in 0..self.random.within(1, 4) {
            match self.random.below(10) {
                0..=1 => self.random_method(),
                2 => self.stacked_method(),
                _ => self.plain_method(),
            }
        }
    }

    /// Some register, with one of its ports, mostly the wanted one.
    fn register(&mut self, wanted: u8) -> (u8, u8) {
        let registers: Vec<(u8, u8)> = (0u8..)
            .zip(&self.faces)
            .filter_map(|(number, face)| match face {
                Face::Register { ports } => Some((number, *ports)),
                Face::User { .. } => None,
            })
            .collect();
        let (number, ports) = self.random.pick(&registers);
        match self.random.in_hundred(85) {
            true => (number, wanted.min(ports - 1)),
            false => (number, self.random.below(usize::from(ports)) as u8),
        }
    }

    /// Methods such as queues and counters are made of.
    fn plain_method(&mut self) {
        let port = self.random.below(4) as u8;
        let (r, p) = self.register(port);
        let k = self.random.below(4) as i32;
        let small = || less(read(r, p), num(k + 2));
        let empty = || equal(read(r, p), num(0));
        let taken = || acts(&[write(r, p, num(0)), read(r, p)]);
        let either = || choose(local(1), local(0), read(r, p));
        let (kind, result, parameters, body, calls): (u8, u8, &[u8], Body, usize) =
            match self.random.below(8) {
                0 => (V, NUM, &[], read(r, p), 1),
                1 => (A, 0, &[NUM], write(r, p, local(0)), 1),
                2 => (A, 0, &[NUM], when(empty(), write(r, p, local(0))), 2),
                3 => (AV, NUM, &[], when(small(), taken()), 3),
                4 => (V, NUM, &[NUM], plus(read(r, p), local(0)), 1),
                5 => (V, BOOL, &[], small(), 1),
                6 => (A, 0, &[], write(r, p, num(k)), 1),
                _ => (V, NUM, &[NUM, BOOL], either(), 1),
            };
        let body = self.perhaps_faulty(kind, body);
        let record = Record::method(kind, result, parameters, body);
        let kinds: Vec<u8> = parameters.to_vec();
        self.keep(record, kind, result, &kinds, calls);
    }

    /// With slips, some bodies that do not keep what they declare.
    fn perhaps_faulty(&mut self, kind: u8, body: Body) -> Body {
        if self.mood.slips == 0 || !self.random.in_hundred(12) {
            return body;
        }
        // An instance that the caller may call, and this method may not.
        let above = self.faces.len() as u8;
        match (self.random.below(4), kind) {
            (0, V) => acts(&[display(num(2)), body]),
            (1, _) => acts(&[local(4), body]),
            (2, _) => acts(&[call(above, 0, &[]), body]),
            (_, A) => num(1),
            _ => void(),
        }
    }

    /// A method with as many live locals as there may be, or nearly; with
    /// slips also one too many.
    fn stacked_method(&mut self) {
        let port = self.random.below(4) as u8;
        let (r, p) = self.register(port);
        let parameters = vec![NUM; self.random.within(0, 4)];
        let over = match self.mood.slips {
            0 => 0,
            _ => self.random.below(3),
        };
        let lets = LIVE_LIMIT + over - parameters.len() - self.random.below(3);
        let mut statements: Vec<Body> = (0..lets).map(|at| bind(num(at as i32))).collect();
        statements.push(act(write(r, p, local(self.random.below(10) as u8))));
        let record = Record::method(A, 0, &parameters, block(&statements));
        self.keep(record, A, 0, &parameters, 1);
    }

    fn keep(&mut self, record: Record, kind: u8, result: u8, parameters: &[u8], calls: usize) {
        self.records.push(record);
        let signature = Signature {
            kind,
            result: kind_of(result),
            parameters: parameters.iter().map(|byte| kind_of(*byte)).collect(),
            calls,
        };
        if let Some(Face::User { methods }) = self.faces.last_mut() {
            methods.push(signature);
        }
    }

    fn writer(&mut self, locals: Vec<Kind>, calls: usize, port: u8) -> Writer<'_> {
        let room = self.random.within(0, self.mood.room);
        Writer {
            random: self.random,
            own: self.faces.len() - 1,
            faces: &self.faces,
            care: Care {
                room,
                deepest: 8,
                slips: self.mood.slips,
                port: Some(port),
                for_running: true,
            },
            locals,
            calls,
            body: Body::new(),
        }
    }

    fn random_method(&mut self) {
        let (kind, result) = self.random.pick(&[(V, NUM), (V, BOOL), (A, 0), (AV, NUM)]);
        let parameters: Vec<u8> = (0..self.random.pick(&[0, 0, 1, 2]))
            .map(|_| self.random.pick(&[NUM, NUM, BOOL]))
            .collect();
        let kinds = parameters.iter().map(|byte| kind_of(*byte)).collect();
        let port = self.random.below(4) as u8;
        let calls = self.random.pick(&[4, 8, 16]);
        let mut writer = self.writer(kinds, calls, port);
        writer.expression(kind_of(result), 1, kind == V);
        let made = calls - writer.calls;
        let record = Record::method(kind, result, &parameters, writer.body);
        self.keep(record, kind, result, &parameters, made);
    }

    fn rule(&mut self) {
        let port = self.random.pick(&[0, 0, 0, 1, 1, 1, 2, 3]);
        let tested = self.register(port);
        let statements = self.random.within(1, self.mood.statements);
        let targets: Vec<(u8, u8)> = (0..statements).map(|_| self.register(port)).collect();
        let brink = self.mood.brink && self.random.in_hundred(60);
        let lets = match self.random.below(12) {
            0 => self.random.within(2, 14),
            _ => 0,
        };
        let mut writer = self.writer(Vec::new(), CALL_LIMIT, port);
        guard(&mut writer, tested);
        writer
            .body
            .block(lets + statements + 2 * usize::from(brink));
        for number in 0..lets {
            writer.body.open_let();
            writer.body.number(number as i32);
            writer.locals.push(Kind::Num);
        }
        for target in targets {
            statement(&mut writer, target);
        }
        if brink {
            fill_up(&mut writer, tested);
            one_more(&mut writer, tested);
        }
        let record = Record::rule(writer.body);
        self.records.push(record);
        self.ports.push(port);
    }

    /// Lower ports first, so that rules can follow each other; or any order.
    fn schedule(&mut self) -> Vec<u8> {
        if self.random.in_hundred(35) {
            return schedule(self.random, self.ports.len());
        }
        let mut entries: Vec<u8> = (0..self.ports.len() as u8).collect();
        self.random.shuffle(&mut entries);
        entries.sort_by_key(|rule| self.ports[usize::from(*rule)]);
        entries
    }
}

/// A part made beforehand, with the calls it makes.
fn put(writer: &mut Writer, part: &Body, calls: usize) {
    writer.calls -= calls;
    writer.body.append(part);
}

/// True, a comparison of the register, or anything.
fn guard(writer: &mut Writer, (instance, port): (u8, u8)) {
    let k = writer.random.below(6) as i32;
    match writer.random.below(20) {
        0..=8 => writer.body.bool(true),
        9..=13 => put(writer, &less(read(instance, port), num(k)), 1),
        14..=16 => put(writer, &equal(read(instance, port), num(k / 2)), 1),
        _ => writer.expression(Kind::Bool, 1, true),
    }
}

/// Reads up to about the limit of calls. What the writer has left counts
/// both arms of an if, so a little more may still pass.
fn fill_up(writer: &mut Writer, (instance, port): (u8, u8)) {
    let count = (writer.calls + writer.random.below(6)).saturating_sub(3);
    let reads = |count: usize| times(count, &read(instance, port));
    let fewer = count - writer.random.below(count + 1);
    let filled = match writer.random.below(4) {
        0 => choose(truth(true), reads(count), reads(fewer)),
        1 => choose(truth(true), reads(fewer), reads(count)),
        _ => reads(count),
    };
    writer.body.open_do();
    writer.body.append(&filled);
}

/// A last call when all are made; with slips its argument may be bad.
fn one_more(writer: &mut Writer, (instance, port): (u8, u8)) {
    writer.body.open_do();
    match writer.random.below(4) {
        0 => writer.body.display(),
        1 => writer.body.call(instance, 2 * port + 1, 1),
        _ => return writer.body.append(&void()),
    }
    let bad = writer.care.slips > 0;
    match writer.random.below(5) {
        0 if bad => writer.body.local(99),
        1 if bad => writer.body.append(&never()),
        2 if bad => writer.body.bool(true),
        _ => writer.body.number(3),
    }
}

/// One statement of a rule's body, which stands at depth 1; a write is of
/// the target. Every statement's value is Void.
fn statement(writer: &mut Writer, (instance, port): (u8, u8)) {
    writer.body.open_do();
    // What is put together here makes at most three calls beside the parts.
    if writer.calls < 4 {
        return writer.expression(Kind::Void, 2, false);
    }
    match writer.random.below(20) {
        0..=7 => write_to(writer, instance, port, 2),
        8..=10 => {
            writer.calls -= 1;
            writer.body.display();
            writer.expression(Kind::Num, 3, false);
        }
        11 => {
            writer.body.open_if();
            writer.expression(Kind::Bool, 3, true);
            write_to(writer, instance, port, 3);
            writer.expression(Kind::Void, 3, false);
        }
        12 => {
            writer.body.open_when();
            writer.expression(Kind::Bool, 3, true);
            write_to(writer, instance, port, 3);
        }
        _ => writer.expression(Kind::Void, 2, false),
    }
}

/// A write at this depth; half of them count the register up or down.
fn write_to(writer: &mut Writer, instance: u8, port: u8, depth: usize) {
    if writer.calls < 2 {
        return writer.expression(Kind::Void, depth, false);
    }
    writer.calls -= 1;
    writer.body.call(instance, 2 * port + 1, 1);
    if writer.random.in_hundred(50) && writer.calls > 0 {
        let step = writer.random.pick(&[1, 1, -1, 2]);
        return put(writer, &plus(read(instance, port), num(step)), 1);
    }
    writer.expression(Kind::Num, depth + 1, false);
}

fn kind_of(byte: u8) -> Kind {
    match byte {
        0 => Kind::Void,
        1 => Kind::Num,
        _ => Kind::Bool,
    }
}
