//! Assembly texts: designs in the words that `show` prints.

mod body;
mod outline;

use crate::text::{cut, Text};
use outline::{first_words, outline, Node};

type Done<T = ()> = Result<T, String>;

const RECORDS: [&str; 4] = ["instance", "method", "rule", "schedule"];
pub const RECORD_WORDS: &str = "instance, method, rule or schedule";

const INSTANCE: &str = "instance N: RG, starts at S; instance N: CR of P ports, starts at S; \
                        or instance N: UM";
const METHOD: &str = "method N (local 0 Num, local 1 Bool): V, A or AV, then Void, Num or Bool";
const RULE: &str = "rule N, then nothing, not scheduled, or entry E of the schedule";

/// Hex texts have no such words.
pub fn is_assembly(text: &str) -> bool {
    let (is_shown, words) = first_words(text);
    is_shown || words.first().is_some_and(|head| RECORDS.contains(head))
}

/// What is wrong with the design is left to the reading; what is no design in
/// words is told here.
pub fn parse(text: &str) -> Done<Text> {
    let mut assembler = Assembler::default();
    assembler.records(&outline(text)?)?;
    Ok(assembler.text)
}

#[derive(Default)]
struct Assembler {
    text: Text,
    /// How many instances there are, methods of the latest one, and rules.
    instances: usize,
    methods: usize,
    rules: usize,
}

/// What a line should have been.
fn wrong<T>(node: &Node, what: &str) -> Done<T> {
    Err(node.place.expected(what, node.code))
}

/// What one of its words should have been.
fn wrong_word<T>(node: &Node, word: &str, what: &str) -> Done<T> {
    Err(node.line.place(word).expected(what, word))
}

/// What should have been in a line, or below it, and how much is.
fn wrong_count<T>(node: &Node, what: &str, found: usize) -> Done<T> {
    let fault = format!("expected {what} {}, found {found}", cut(node.code));
    Err(node.place.fault(fault))
}

fn byte(node: &Node, word: &str) -> Done<u8> {
    let number = word.parse();
    number.or_else(|_| wrong_word(node, word, "a number from 0 to 255"))
}

fn number(node: &Node, word: &str) -> Done<i32> {
    let what = "a number from -2147483648 to 2147483647";
    word.parse().or_else(|_| wrong_word(node, word, what))
}

/// The numbers follow from the order. They are held to it, as a line put
/// between others changes what the calls below it name.
fn is_next(node: &Node, word: &str, next: usize) -> Done {
    match word.parse() == Ok(next) {
        true => Ok(()),
        false => wrong_word(node, word, &format!("{next}, the next number in order")),
    }
}

fn only<'a, 'n>(node: &'n Node<'a>) -> Done<&'n Node<'a>> {
    match &node.parts[..] {
        [part] => Ok(part),
        parts => wrong_count(node, "1 part below", parts.len()),
    }
}

/// How many, in a byte.
fn count<T>(node: &Node, row: &[T], what: &str) -> Done<u8> {
    let most = format!("at most 255 {what}");
    u8::try_from(row.len()).or_else(|_| wrong_count(node, &most, row.len()))
}

fn kind(node: &Node, word: &str) -> Done<u8> {
    let kind = index(&["Void", "Num", "Bool"], word);
    kind.map_or_else(|| wrong_word(node, word, "a kind: Void, Num or Bool"), Ok)
}

fn sort(node: &Node, word: &str) -> Done<u8> {
    let sort = index(&["V", "A", "AV"], word);
    sort.map_or_else(
        || wrong_word(node, word, "a sort of method: V, A or AV"),
        Ok,
    )
}

fn index(names: &[&str], word: &str) -> Option<u8> {
    names
        .iter()
        .zip(0..)
        .find_map(|(name, at)| (*name == word).then_some(at))
}

impl Assembler {
    fn records(&mut self, nodes: &[Node]) -> Done {
        nodes.iter().try_for_each(|node| self.record(node))
    }

    fn record(&mut self, node: &Node) -> Done {
        match node.words[..] {
            ["instance", at, ref of @ ..] => {
                is_next(node, at, self.instances)?;
                self.instances += 1;
                self.methods = 0;
                self.instance(node, of)?;
                self.records(&node.parts)
            }
            ["method", at, ref parameters @ .., kind, result] => {
                is_next(node, at, self.methods)?;
                self.methods += 1;
                self.method(node, parameters, kind, result)
            }
            // The schedule alone says which entry it is.
            ["rule", at]
            | ["rule", at, "not", "scheduled"]
            | ["rule", at, "entry", _, "of", "the", "schedule"] => {
                is_next(node, at, self.rules)?;
                self.rules += 1;
                self.rule(node)
            }
            ["schedule", ref entries @ ..] => {
                self.schedule(node, entries)?;
                self.records(&node.parts)
            }
            ["instance", ..] => wrong(node, INSTANCE),
            ["method", ..] => wrong(node, METHOD),
            ["rule", ..] => wrong(node, RULE),
            _ => wrong(node, &format!("a record: {RECORD_WORDS}")),
        }
    }

    fn put(&mut self, node: &Node, bytes: &[u8]) {
        self.text.put(bytes, node.line.number);
    }

    fn instance(&mut self, node: &Node, of: &[&str]) -> Done {
        let start = match of {
            ["UM"] => {
                self.put(node, b"UM");
                return Ok(());
            }
            ["RG", "starts", "at", start] => {
                self.put(node, b"RG");
                start
            }
            ["CR", "of", ports, "ports", "starts", "at", start] => {
                self.put(node, &[b'C', b'R', byte(node, ports)?]);
                start
            }
            _ => return wrong(node, INSTANCE),
        };
        self.put(node, &number(node, start)?.to_le_bytes());
        Ok(())
    }

    fn method(&mut self, node: &Node, parameters: &[&str], of: &str, result: &str) -> Done {
        let of = sort(node, of)?;
        let mut kinds = Vec::new();
        for parameter in parameters.chunks(3) {
            let ["local", at, of] = parameter else {
                return wrong(node, METHOD);
            };
            is_next(node, at, kinds.len())?;
            kinds.push(kind(node, of)?);
        }
        let result = kind(node, result)?;
        let many = count(node, &kinds, "parameters in")?;
        self.put(node, &[b'M', b'D', of, result, many]);
        self.put(node, &kinds);
        let body = only(node)?;
        self.measured(node, |text| text.expression(body))
    }

    fn rule(&mut self, node: &Node) -> Done {
        let [guard, body] = &node.parts[..] else {
            return wrong_count(node, "a guard and a body below", node.parts.len());
        };
        for (part, word) in [(guard, "guard"), (body, "body")] {
            if part.words != [word] {
                return wrong(part, word);
            }
        }
        self.put(node, b"RL");
        self.measured(node, |text| {
            text.expression(only(guard)?)?;
            text.expression(only(body)?)
        })
    }

    /// A length, and what has it.
    fn measured(&mut self, node: &Node, inside: impl FnOnce(&mut Self) -> Done) -> Done {
        self.put(node, &[0, 0]);
        let start = self.text.bytes.len();
        inside(self)?;
        let length = self.text.bytes.len() - start;
        let most = "at most 65,535 bytes below";
        let length = u16::try_from(length).or_else(|_| wrong_count(node, most, length))?;
        self.text.bytes[start - 2..start].copy_from_slice(&length.to_le_bytes());
        Ok(())
    }

    fn schedule(&mut self, node: &Node, entries: &[&str]) -> Done {
        let rules: Done<Vec<u8>> = entries.iter().map(|entry| byte(node, entry)).collect();
        let rules = rules?;
        let many = count(node, &rules, "entries in")?;
        self.put(node, &[b'S', b'C', many]);
        self.put(node, &rules);
        Ok(())
    }
}

#[cfg(test)]
mod tests;
