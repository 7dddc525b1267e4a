//! Files as lists of records whose fields may hold anything, so that a
//! fault can be put exactly where it is wanted.

/// What a byte of a body is there for.
#[derive(Clone, Copy, Debug, PartialEq, Eq)]
pub enum Role {
    Expression,
    Statement,
    Number,
    Bool,
    Local,
    Operator,
    BlockCount,
    Instance,
    Method,
    ArgumentCount,
}

/// Bytes of expressions in prefix order, each with its role.
#[derive(Clone, Debug, Default)]
pub struct Body {
    pub bytes: Vec<u8>,
    pub roles: Vec<Role>,
}

impl Body {
    pub fn new() -> Self {
        Body::default()
    }

    pub fn put(&mut self, byte: u8, role: Role) {
        self.bytes.push(byte);
        self.roles.push(role);
    }

    pub fn number(&mut self, value: i32) {
        self.put(1, Role::Expression);
        for byte in value.to_le_bytes() {
            self.put(byte, Role::Number);
        }
    }

    pub fn bool(&mut self, value: bool) {
        self.put(2, Role::Expression);
        self.put(value as u8, Role::Bool);
    }

    pub fn local(&mut self, number: u8) {
        self.put(3, Role::Expression);
        self.put(number, Role::Local);
    }

    /// The operands follow, as the parts of all forms below do.
    pub fn operator(&mut self, operator: u8) {
        self.put(4, Role::Expression);
        self.put(operator, Role::Operator);
    }

    pub fn open_if(&mut self) {
        self.put(5, Role::Expression);
    }

    pub fn open_when(&mut self) {
        self.put(6, Role::Expression);
    }

    pub fn block(&mut self, count: usize) {
        self.put(7, Role::Expression);
        self.put(count as u8, Role::BlockCount);
    }

    pub fn open_let(&mut self) {
        self.put(8, Role::Statement);
    }

    pub fn open_do(&mut self) {
        self.put(9, Role::Statement);
    }

    pub fn call(&mut self, instance: u8, method: u8, arguments: usize) {
        self.put(10, Role::Expression);
        self.put(instance, Role::Instance);
        self.put(method, Role::Method);
        self.put(arguments as u8, Role::ArgumentCount);
    }

    pub fn display(&mut self) {
        self.put(11, Role::Expression);
    }

    pub fn append(&mut self, other: &Body) {
        self.bytes.extend(&other.bytes);
        self.roles.extend(&other.roles);
    }

    pub fn truncate(&mut self, length: usize) {
        self.bytes.truncate(length);
        self.roles.truncate(length);
    }
}

#[derive(Clone, Debug)]
pub enum Record {
    Register {
        start: i32,
    },
    Concurrent {
        ports: u8,
        start: i32,
    },
    User,
    Method {
        kind: u8,
        result: u8,
        parameters: Vec<u8>,
        /// The length the record gives; the body may be of another.
        length: usize,
        body: Body,
    },
    Rule {
        length: usize,
        body: Body,
    },
    Schedule {
        count: usize,
        entries: Vec<u8>,
    },
    /// Bytes that are no record.
    Raw(Vec<u8>),
}

impl Record {
    pub fn method(kind: u8, result: u8, parameters: &[u8], body: Body) -> Self {
        Record::Method {
            kind,
            result,
            parameters: parameters.to_vec(),
            length: body.bytes.len(),
            body,
        }
    }

    pub fn rule(body: Body) -> Self {
        Record::Rule {
            length: body.bytes.len(),
            body,
        }
    }

    pub fn schedule(entries: Vec<u8>) -> Self {
        Record::Schedule {
            count: entries.len(),
            entries,
        }
    }

    pub fn body(&self) -> Option<&Body> {
        match self {
            Record::Method { body, .. } | Record::Rule { body, .. } => Some(body),
            _ => None,
        }
    }

    /// Put another body in, and its length.
    pub fn set_body(&mut self, new: Body) {
        if let Record::Method { length, body, .. } | Record::Rule { length, body } = self {
            *length = new.bytes.len();
            *body = new;
        }
    }

    /// Give a length that need not be the body's.
    pub fn set_length(&mut self, new: usize) {
        if let Record::Method { length, .. } | Record::Rule { length, .. } = self {
            *length = new;
        }
    }

    pub fn bytes(&self) -> Vec<u8> {
        let mut out = Vec::new();
        self.write(&mut out);
        out
    }

    fn write(&self, out: &mut Vec<u8>) {
        match self {
            Record::Register { start } => {
                out.extend(b"RG");
                out.extend(start.to_le_bytes());
            }
            Record::Concurrent { ports, start } => {
                out.extend([b'C', b'R', *ports]);
                out.extend(start.to_le_bytes());
            }
            Record::User => out.extend(b"UM"),
            Record::Method {
                kind,
                result,
                parameters,
                length,
                body,
            } => {
                out.extend([b'M', b'D', *kind, *result, parameters.len() as u8]);
                out.extend(parameters);
                out.extend((*length as u16).to_le_bytes());
                out.extend(&body.bytes);
            }
            Record::Rule { length, body } => {
                out.extend(b"RL");
                out.extend((*length as u16).to_le_bytes());
                out.extend(&body.bytes);
            }
            Record::Schedule { count, entries } => {
                out.extend([b'S', b'C', *count as u8]);
                out.extend(entries);
            }
            Record::Raw(bytes) => out.extend(bytes),
        }
    }
}

/// A file to be.
#[derive(Clone, Debug, Default)]
pub struct Plan {
    pub records: Vec<Record>,
}

impl Plan {
    pub fn new(records: Vec<Record>) -> Self {
        Plan { records }
    }

    pub fn file(&self) -> Vec<u8> {
        self.first(self.records.len())
    }

    /// The bytes of the records before number `end`.
    pub fn first(&self, end: usize) -> Vec<u8> {
        let mut out = Vec::new();
        for record in &self.records[..end] {
            record.write(&mut out);
        }
        out
    }

    pub fn rule_count(&self) -> usize {
        self.count(|record| matches!(record, Record::Rule { .. }))
    }

    pub fn method_count(&self) -> usize {
        self.count(|record| matches!(record, Record::Method { .. }))
    }

    pub fn instance_count(&self) -> usize {
        self.count(is_instance)
    }

    fn count(&self, which: impl Fn(&Record) -> bool) -> usize {
        self.records.iter().filter(|record| which(record)).count()
    }

    /// The numbers of the records for which `which` holds.
    pub fn places(&self, which: impl Fn(&Record) -> bool) -> Vec<usize> {
        let holds = |at: &usize| which(&self.records[*at]);
        (0..self.records.len()).filter(holds).collect()
    }

    /// Is the latest instance before record `at` a UM?
    pub fn latest_is_user(&self, at: usize) -> bool {
        let latest = self.records[..at].iter().rev().find(|r| is_instance(r));
        matches!(latest, Some(Record::User))
    }

    /// Where the schedule stands; the end when there is none.
    pub fn schedule_place(&self) -> usize {
        self.records
            .iter()
            .position(|record| matches!(record, Record::Schedule { .. }))
            .unwrap_or(self.records.len())
    }
}

fn is_instance(record: &Record) -> bool {
    matches!(
        record,
        Record::Register { .. } | Record::Concurrent { .. } | Record::User
    )
}
