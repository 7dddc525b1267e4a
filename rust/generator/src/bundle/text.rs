//! A design file as text: hex, with offsets and words beside it.

use std::fmt::Write;

use super::expression::{Method, Node, Register};

#[derive(Clone, Copy, Debug)]
pub enum Kind {
    Void,
    Num,
    Bool,
}

#[derive(Clone, Copy, Debug)]
pub enum MethodKind {
    V,
    A,
    AV,
}

/// A design file to be, line by line.
#[derive(Clone, Debug)]
pub struct Text {
    about: &'static str,
    lines: Vec<Line>,
    instances: u8,
    methods: u8,
    module: &'static str,
    rules: Vec<String>,
}

#[derive(Clone, Debug)]
struct Line {
    bytes: Vec<u8>,
    depth: usize,
    words: String,
}

/// Where the words begin, so that they stand under each other.
const WORDS: usize = 26;

impl Text {
    pub fn new(about: &'static str) -> Self {
        Text {
            about,
            lines: Vec::new(),
            instances: 0,
            methods: 0,
            module: "",
            rules: Vec::new(),
        }
    }

    fn line(&mut self, depth: usize, bytes: Vec<u8>, words: String) {
        self.lines.push(Line {
            bytes,
            depth,
            words,
        });
    }

    fn next_instance(&mut self) -> u8 {
        self.methods = 0;
        self.instances += 1;
        self.instances - 1
    }

    pub fn register(&mut self, name: &'static str, start: i32) -> Register {
        let number = self.next_instance();
        let bytes = [b"RG", &start.to_le_bytes()[..]].concat();
        let words = format!("instance {number}: register {name}, starts at {start}");
        self.line(0, bytes, words);
        Register { number, name }
    }

    pub fn concurrent(&mut self, name: &'static str, ports: u8, start: i32) -> Register {
        let number = self.next_instance();
        let bytes = [b"CR", &[ports][..], &start.to_le_bytes()].concat();
        let words = format!(
            "instance {number}: concurrent register {name}, {ports} ports, starts at {start}"
        );
        self.line(0, bytes, words);
        Register { number, name }
    }

    pub fn module(&mut self, name: &'static str) {
        let number = self.next_instance();
        self.module = name;
        let words = format!("instance {number}: user module {name}");
        self.line(0, b"UM".to_vec(), words);
    }

    /// The parameters are locals 0 and up of the body.
    pub fn method(
        &mut self,
        name: &str,
        kind: MethodKind,
        result: Kind,
        parameters: &[(&str, Kind)],
        body: Node,
    ) -> Method {
        let (instance, number) = (self.instances - 1, self.methods);
        self.methods += 1;
        let mut bytes = [b'M', b'D', kind as u8, result as u8, parameters.len() as u8].to_vec();
        bytes.extend(parameters.iter().map(|(_, kind)| *kind as u8));
        bytes.extend((body.length() as u16).to_le_bytes());
        let named = |(name, kind): &(&str, Kind)| format!("{name} {kind:?}");
        let parameters: Vec<String> = parameters.iter().map(named).collect();
        let words = format!(
            "method {number}, {name} ({}): {kind:?}, {result:?}, {} bytes",
            parameters.join(", "),
            body.length()
        );
        self.line(1, bytes, words);
        self.node(2, &body);
        Method {
            instance,
            number,
            name: format!("{}.{name}", self.module),
        }
    }

    /// The number of the rule.
    pub fn rule(&mut self, name: &str, guard: Node, body: Node) -> u8 {
        let number = self.rules.len();
        let length = guard.length() + body.length();
        let bytes = [b"RL", &(length as u16).to_le_bytes()[..]].concat();
        let words = format!("rule {number}, {name}: guard and body, {length} bytes");
        self.line(1, bytes, words);
        self.node(2, &guard);
        self.node(2, &body);
        self.rules.push(name.to_string());
        number as u8
    }

    pub fn schedule(mut self, entries: &[u8]) -> Self {
        let count = entries.len() as u8;
        self.line(0, vec![b'S', b'C', count], format!("schedule of {count}"));
        for entry in entries {
            let words = format!("rule {entry}, {}", self.rules[usize::from(*entry)]);
            self.line(1, vec![*entry], words);
        }
        self
    }

    fn node(&mut self, depth: usize, node: &Node) {
        self.line(depth, node.head.clone(), node.words.clone());
        for part in &node.parts {
            self.node(depth + 1, part);
        }
    }

    pub fn bytes(&self) -> Vec<u8> {
        self.lines
            .iter()
            .flat_map(|line| line.bytes.clone())
            .collect()
    }

    /// Hex on the left; on the right after `#` offset and words.
    pub fn hex(&self) -> String {
        let mut text = String::new();
        for line in self.about.lines() {
            text.push_str(format!("# {line}").trim_end());
            text.push('\n');
        }
        text.push_str("#\n# bytes, then # offset and words\n\n");
        let mut offset = 0;
        for Line {
            bytes,
            depth,
            words,
        } in &self.lines
        {
            let pairs: Vec<String> = bytes.iter().map(|byte| format!("{byte:02X}")).collect();
            let indent = 2 * depth;
            // Writing to a string cannot fail.
            let _ = writeln!(
                text,
                "{:<WORDS$} # {offset:4} {:indent$}{words}",
                pairs.join(" "),
                ""
            );
            offset += bytes.len();
        }
        text
    }
}
