//! A small assembler: expressions as their bytes, and files by records.

/// The bytes of one expression, or of one statement.
pub type Bytes = Vec<u8>;

pub const V: u8 = 0;
pub const A: u8 = 1;
pub const AV: u8 = 2;
pub const VOID: u8 = 0;
pub const NUM: u8 = 1;
pub const BOOL: u8 = 2;

fn form(head: &[u8], parts: &[Bytes]) -> Bytes {
    let mut bytes = head.to_vec();
    bytes.extend(parts.concat());
    bytes
}

pub fn num(value: i32) -> Bytes {
    form(&[1], &[value.to_le_bytes().to_vec()])
}

pub fn truth(value: bool) -> Bytes {
    vec![2, value as u8]
}

pub fn local(number: u8) -> Bytes {
    vec![3, number]
}

pub fn plus(left: Bytes, right: Bytes) -> Bytes {
    form(&[4, 0], &[left, right])
}

pub fn minus(left: Bytes, right: Bytes) -> Bytes {
    form(&[4, 1], &[left, right])
}

pub fn equal(left: Bytes, right: Bytes) -> Bytes {
    form(&[4, 2], &[left, right])
}

pub fn less(left: Bytes, right: Bytes) -> Bytes {
    form(&[4, 3], &[left, right])
}

pub fn and(left: Bytes, right: Bytes) -> Bytes {
    form(&[4, 4], &[left, right])
}

pub fn or(left: Bytes, right: Bytes) -> Bytes {
    form(&[4, 5], &[left, right])
}

pub fn not(only: Bytes) -> Bytes {
    form(&[4, 6], &[only])
}

pub fn choose(condition: Bytes, then: Bytes, otherwise: Bytes) -> Bytes {
    form(&[5], &[condition, then, otherwise])
}

pub fn when(guard: Bytes, body: Bytes) -> Bytes {
    form(&[6], &[guard, body])
}

pub fn block(statements: &[Bytes]) -> Bytes {
    form(&[7, statements.len() as u8], statements)
}

/// A statement that binds the next local.
pub fn bind(value: Bytes) -> Bytes {
    form(&[8], &[value])
}

/// A statement that only evaluates.
pub fn act(value: Bytes) -> Bytes {
    form(&[9], &[value])
}

pub fn call(instance: u8, method: u8, arguments: &[Bytes]) -> Bytes {
    form(&[10, instance, method, arguments.len() as u8], arguments)
}

pub fn display(value: Bytes) -> Bytes {
    form(&[11], &[value])
}

pub fn read_port(instance: u8, port: u8) -> Bytes {
    call(instance, 2 * port, &[])
}

pub fn write_port(instance: u8, port: u8, value: Bytes) -> Bytes {
    call(instance, 2 * port + 1, &[value])
}

/// A Void value without any call: a block that only binds.
pub fn void() -> Bytes {
    block(&[bind(num(0))])
}

/// An expression that is never available, of no kind in particular.
pub fn never() -> Bytes {
    when(truth(false), num(0))
}

/// A file, record by record.
#[derive(Clone, Default)]
pub struct File {
    pub bytes: Vec<u8>,
}

impl File {
    pub fn new() -> Self {
        File::default()
    }

    fn with(mut self, bytes: &[u8]) -> Self {
        self.bytes.extend(bytes);
        self
    }

    pub fn rg(self, start: i32) -> Self {
        self.with(b"RG").with(&start.to_le_bytes())
    }

    pub fn cr(self, ports: u8, start: i32) -> Self {
        self.with(b"CR").with(&[ports]).with(&start.to_le_bytes())
    }

    pub fn um(self) -> Self {
        self.with(b"UM")
    }

    pub fn md(self, kind: u8, result: u8, parameters: &[u8], body: Bytes) -> Self {
        self.with(b"MD")
            .with(&[kind, result, parameters.len() as u8])
            .with(parameters)
            .sized(&body)
    }

    pub fn rl(self, guard: Bytes, body: Bytes) -> Self {
        self.with(b"RL").sized(&[guard, body].concat())
    }

    fn sized(self, body: &[u8]) -> Self {
        self.with(&(body.len() as u16).to_le_bytes()).with(body)
    }

    pub fn sc(self, entries: &[u8]) -> Self {
        self.with(b"SC").with(&[entries.len() as u8]).with(entries)
    }

    /// The lister's input: the clock count before the design.
    pub fn listed(&self, count: u32) -> Vec<u8> {
        [&count.to_le_bytes(), &self.bytes[..]].concat()
    }
}
