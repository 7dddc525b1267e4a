//! The records, one after the other.

use super::body;
use super::{INSTANCE_LIMIT, METHOD_LIMIT, RULE_LIMIT, SCHEDULE_LIMIT};
use crate::design::{Design, Instance, Kind, Method, MethodKind, Part, Refusal, Rule};

pub struct Records<'a> {
    file: &'a [u8],
    /// The next byte to be read.
    at: usize,
    /// Where the mark of the record being read begins.
    record: usize,
    design: Design,
}

impl<'a> Records<'a> {
    pub fn new(file: &'a [u8]) -> Self {
        Records {
            file,
            at: 0,
            record: 0,
            design: Design::default(),
        }
    }

    pub fn read_all(mut self) -> Result<Design, Refusal> {
        loop {
            self.record = self.at;
            if self.at == self.file.len() {
                return self.refuse(9);
            }
            let last = self.read_record()?;
            if last {
                break;
            }
        }
        // Whatever stands after SC, its first byte is the place.
        self.record = self.at;
        if self.at < self.file.len() {
            return self.refuse(4);
        }
        Ok(self.design)
    }

    /// One record; true when it was the schedule.
    fn read_record(&mut self) -> Result<bool, Refusal> {
        let mark = self.field(2)?;
        match mark {
            b"RG" => self.register(false)?,
            b"CR" => self.register(true)?,
            b"UM" => self.user()?,
            b"MD" => self.method()?,
            b"RL" => self.rule()?,
            b"SC" => self.schedule()?,
            _ => return self.refuse(3),
        }
        Ok(mark == b"SC")
    }

    /// All refusals but those after SC and at the end stand at the record;
    /// for those two the record is set to their place beforehand.
    fn refuse<T>(&self, number: u8) -> Result<T, Refusal> {
        Err(Refusal {
            number,
            place: self.record,
        })
    }

    /// The next bytes as one field; cut short by the end of the file is 2.
    fn field(&mut self, length: usize) -> Result<&'a [u8], Refusal> {
        if self.file.len() - self.at < length {
            return self.refuse(2);
        }
        let field = &self.file[self.at..self.at + length];
        self.at += length;
        Ok(field)
    }

    /// A field of one byte that has a range.
    fn ranged(&mut self, low: u8, high: u8) -> Result<u8, Refusal> {
        let byte = self.field(1)?[0];
        if byte < low || byte > high {
            return self.refuse(6);
        }
        Ok(byte)
    }

    fn start_value(&mut self) -> Result<i32, Refusal> {
        let bytes = self.field(4)?;
        Ok(i32::from_le_bytes([bytes[0], bytes[1], bytes[2], bytes[3]]))
    }

    fn test_instance_limit(&self) -> Result<(), Refusal> {
        if self.design.instances.len() == INSTANCE_LIMIT {
            return self.refuse(5);
        }
        Ok(())
    }

    fn register(&mut self, concurrent: bool) -> Result<(), Refusal> {
        self.test_instance_limit()?;
        let ports = if concurrent { self.ranged(1, 4)? } else { 1 };
        let start = self.start_value()?;
        let register = Instance::Register { ports, start };
        self.design.instances.push(register);
        Ok(())
    }

    fn user(&mut self) -> Result<(), Refusal> {
        self.test_instance_limit()?;
        let methods = Vec::new();
        self.design.instances.push(Instance::User { methods });
        Ok(())
    }

    /// MD and RL belong to the latest instance; with none at all it is no UM.
    fn test_latest_is_user(&self) -> Result<(), Refusal> {
        match self.design.instances.last() {
            Some(Instance::User { .. }) => Ok(()),
            Some(Instance::Register { .. }) | None => self.refuse(4),
        }
    }

    fn method(&mut self) -> Result<(), Refusal> {
        self.test_latest_is_user()?;
        if self.design.method_count() == METHOD_LIMIT {
            return self.refuse(5);
        }
        let (kind, result) = self.kind_and_result()?;
        let count = self.ranged(0, 4)?;
        let mut parameters = Vec::new();
        for _ in 0..count {
            parameters.push(kind_of(self.ranged(1, 2)?));
        }
        let part = self.body_part()?;
        let Some(body) = body::method(self.bytes_of(part)) else {
            return self.refuse(7);
        };
        let method = Method {
            record: self.record,
            kind,
            result,
            parameters,
            part,
            body,
        };
        if let Some(Instance::User { methods }) = self.design.instances.last_mut() {
            methods.push(method);
        }
        Ok(())
    }

    /// Their agreement is tested as soon as the result is read.
    fn kind_and_result(&mut self) -> Result<(MethodKind, Kind), Refusal> {
        let kind = match self.ranged(0, 2)? {
            0 => MethodKind::V,
            1 => MethodKind::A,
            _ => MethodKind::AV,
        };
        let result = kind_of(self.ranged(0, 2)?);
        if (kind == MethodKind::A) != (result == Kind::Void) {
            return self.refuse(6);
        }
        Ok((kind, result))
    }

    fn rule(&mut self) -> Result<(), Refusal> {
        self.test_latest_is_user()?;
        if self.design.rules.len() == RULE_LIMIT {
            return self.refuse(5);
        }
        let part = self.body_part()?;
        let Some((guard, body)) = body::rule(self.bytes_of(part)) else {
            return self.refuse(7);
        };
        self.design.rules.push(Rule {
            record: self.record,
            instance: self.design.instances.len() - 1,
            part,
            guard,
            body,
        });
        Ok(())
    }

    /// The length and the bytes it announces, which must all be in the file.
    fn body_part(&mut self) -> Result<Part, Refusal> {
        let bytes = self.field(2)?;
        let length = usize::from(u16::from_le_bytes([bytes[0], bytes[1]]));
        let start = self.at;
        self.field(length)?;
        Ok(Part { start, length })
    }

    fn bytes_of(&self, part: Part) -> &'a [u8] {
        &self.file[part.start..part.start + part.length]
    }

    fn schedule(&mut self) -> Result<(), Refusal> {
        let count = self.ranged(0, SCHEDULE_LIMIT as u8)?;
        for _ in 0..count {
            let entry = self.field(1)?[0];
            let missing = usize::from(entry) >= self.design.rules.len();
            if missing || self.design.schedule.contains(&entry) {
                return self.refuse(8);
            }
            self.design.schedule.push(entry);
        }
        Ok(())
    }
}

/// The kind a byte already known to be in range stands for.
fn kind_of(byte: u8) -> Kind {
    match byte {
        0 => Kind::Void,
        1 => Kind::Num,
        _ => Kind::Bool,
    }
}
