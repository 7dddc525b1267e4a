//! Expressions with words for a reader.

/// An expression or a statement: its own bytes, their words, and its parts.
#[derive(Clone, Debug)]
pub struct Node {
    pub head: Vec<u8>,
    pub words: String,
    pub parts: Vec<Node>,
}

impl Node {
    pub fn length(&self) -> usize {
        self.head.len() + self.parts.iter().map(Node::length).sum::<usize>()
    }
}

pub fn node(head: &[u8], words: impl Into<String>, parts: Vec<Node>) -> Node {
    Node {
        head: head.to_vec(),
        words: words.into(),
        parts,
    }
}

pub fn num(value: i32) -> Node {
    let [a, b, c, d] = value.to_le_bytes();
    node(&[1, a, b, c, d], value.to_string(), vec![])
}

pub fn truth(value: bool) -> Node {
    node(&[2, value.into()], value.to_string(), vec![])
}

/// A local, with what its binder calls it.
pub fn local(number: u8, name: &str) -> Node {
    node(&[3, number], format!("local {number} ({name})"), vec![])
}

pub fn plus(left: Node, right: Node) -> Node {
    node(&[4, 0], "plus", vec![left, right])
}

pub fn minus(left: Node, right: Node) -> Node {
    node(&[4, 1], "minus", vec![left, right])
}

pub fn equal(left: Node, right: Node) -> Node {
    node(&[4, 2], "equal", vec![left, right])
}

pub fn less(left: Node, right: Node) -> Node {
    node(&[4, 3], "less", vec![left, right])
}

pub fn and(left: Node, right: Node) -> Node {
    node(&[4, 4], "and", vec![left, right])
}

pub fn or(left: Node, right: Node) -> Node {
    node(&[4, 5], "or", vec![left, right])
}

pub fn not(only: Node) -> Node {
    node(&[4, 6], "not", vec![only])
}

pub fn choose(condition: Node, then: Node, otherwise: Node) -> Node {
    let words = "if: condition, then, else";
    node(&[5], words, vec![condition, then, otherwise])
}

pub fn when(guard: Node, body: Node) -> Node {
    node(&[6], "when: guard, body", vec![guard, body])
}

pub fn block(statements: Vec<Node>) -> Node {
    let count = statements.len() as u8;
    let words = format!("block of {count}");
    node(&[7, count], words, statements)
}

/// A statement that binds the next local.
pub fn bind(name: &str, value: Node) -> Node {
    node(&[8], format!("let {name}"), vec![value])
}

/// A statement that only evaluates.
pub fn act(value: Node) -> Node {
    node(&[9], "do", vec![value])
}

pub fn display(value: Node) -> Node {
    node(&[11], "display", vec![value])
}

/// Void, and nothing done: a block that only binds.
pub fn nothing() -> Node {
    block(vec![bind("nothing", truth(false))])
}

/// An RG or CR.
#[derive(Clone, Copy, Debug)]
pub struct Register {
    pub number: u8,
    pub name: &'static str,
}

impl Register {
    pub fn read(self) -> Node {
        node(
            &[10, self.number, 0, 0],
            format!("{}.read", self.name),
            vec![],
        )
    }

    pub fn write(self, value: Node) -> Node {
        let words = format!("{}.write", self.name);
        node(&[10, self.number, 1, 1], words, vec![value])
    }

    pub fn read_by(self, port: u8) -> Node {
        let words = format!("{}.read {port}", self.name);
        node(&[10, self.number, 2 * port, 0], words, vec![])
    }

    pub fn write_by(self, port: u8, value: Node) -> Node {
        let words = format!("{}.write {port}", self.name);
        node(&[10, self.number, 2 * port + 1, 1], words, vec![value])
    }
}

/// A method of a user module.
#[derive(Clone, Debug)]
pub struct Method {
    pub instance: u8,
    pub number: u8,
    pub name: String,
}

impl Method {
    pub fn call(&self, arguments: Vec<Node>) -> Node {
        let count = arguments.len() as u8;
        let head = [10, self.instance, self.number, count];
        node(&head, self.name.clone(), arguments)
    }
}
