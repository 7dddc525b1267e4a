//! Records, from their bytes.

use super::{Kind, MethodKind, Record};

pub struct Cursor<'a> {
    file: &'a [u8],
    at: usize,
}

impl Cursor<'_> {
    pub fn at(&self) -> usize {
        self.at
    }

    pub fn byte(&mut self) -> Option<u8> {
        let byte = *self.file.get(self.at)?;
        self.at += 1;
        Some(byte)
    }

    fn bytes<const N: usize>(&mut self) -> Option<[u8; N]> {
        let field = self.file.get(self.at..)?.first_chunk()?;
        self.at += N;
        Some(*field)
    }

    pub fn number(&mut self) -> Option<i32> {
        self.bytes().map(i32::from_le_bytes)
    }

    fn kind(&mut self) -> Option<Kind> {
        Some(match self.byte()? {
            0 => Kind::Void,
            1 => Kind::Num,
            2 => Kind::Bool,
            _ => return None,
        })
    }

    /// The body length is told by the expressions themselves.
    fn skip_length(&mut self) -> Option<()> {
        self.bytes::<2>().map(|_| ())
    }
}

/// All records of a file, in order.
pub fn records(file: &[u8]) -> Option<Vec<Record>> {
    let mut reading = Reading {
        cursor: Cursor { file, at: 0 },
        instances: 0,
        methods: 0,
        rules: 0,
    };
    let mut records = Vec::new();
    loop {
        let record = reading.record()?;
        let last = matches!(record, Record::Schedule { .. });
        records.push(record);
        if last {
            return Some(records);
        }
    }
}

struct Reading<'a> {
    cursor: Cursor<'a>,
    /// How many instances there are, methods of the latest one, and rules.
    instances: usize,
    methods: usize,
    rules: usize,
}

impl Reading<'_> {
    fn record(&mut self) -> Option<Record> {
        let offset = self.cursor.at;
        match &self.cursor.bytes()? {
            b"RG" => self.register(offset, None),
            b"CR" => {
                let ports = self.cursor.byte()?;
                self.register(offset, Some(ports))
            }
            b"UM" => Some(Record::User {
                offset,
                instance: self.next_instance(),
            }),
            b"MD" => self.method(offset),
            b"RL" => self.rule(offset),
            b"SC" => self.schedule(offset),
            _ => None,
        }
    }

    fn next_instance(&mut self) -> usize {
        self.instances += 1;
        self.methods = 0;
        self.instances - 1
    }

    fn register(&mut self, offset: usize, ports: Option<u8>) -> Option<Record> {
        Some(Record::Register {
            offset,
            instance: self.next_instance(),
            ports,
            start: self.cursor.number()?,
        })
    }

    fn method(&mut self, offset: usize) -> Option<Record> {
        let kind = match self.cursor.byte()? {
            0 => MethodKind::V,
            1 => MethodKind::A,
            2 => MethodKind::AV,
            _ => return None,
        };
        let result = self.cursor.kind()?;
        let count = self.cursor.byte()?;
        let parameters = (0..count)
            .map(|_| self.cursor.kind())
            .collect::<Option<_>>()?;
        self.cursor.skip_length()?;
        self.methods += 1;
        Some(Record::Method {
            offset,
            instance: self.instances.checked_sub(1)?,
            method: self.methods - 1,
            kind,
            result,
            parameters,
            body: self.cursor.expression()?,
        })
    }

    fn rule(&mut self, offset: usize) -> Option<Record> {
        self.cursor.skip_length()?;
        self.rules += 1;
        Some(Record::Rule {
            offset,
            instance: self.instances.checked_sub(1)?,
            rule: self.rules - 1,
            guard: self.cursor.expression()?,
            body: self.cursor.expression()?,
        })
    }

    fn schedule(&mut self, offset: usize) -> Option<Record> {
        let count = self.cursor.byte()?;
        let entries = (0..count)
            .map(|_| self.cursor.byte())
            .collect::<Option<_>>()?;
        Some(Record::Schedule { offset, entries })
    }
}
