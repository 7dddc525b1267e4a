//! Expressions, in words.

use cantaribol::Operator;

use super::outline::Node;
use super::{byte, count, number, only, wrong, wrong_count, wrong_word, Assembler, Done};

const CALL: &str = "call I.read, call I.write, call I.read P, call I.write P or call I.method M";

/// All that an expression can be.
fn expression_words() -> String {
    let operators = Operator::ALL.map(Operator::word).join(", ");
    format!(
        "an expression: a number, true, false, local N, {operators}, if, when, block, call or \
         display"
    )
}

fn operator(word: &str) -> Option<(Operator, u8)> {
    let mut operators = Operator::ALL.into_iter().zip(0..);
    operators.find(|(operator, _)| operator.word() == word)
}

impl Assembler {
    pub fn expression(&mut self, node: &Node) -> Done {
        match node.words[..] {
            ["true"] => self.form(node, &[0x02, 1], 0),
            ["false"] => self.form(node, &[0x02, 0], 0),
            ["local", at] => self.form(node, &[0x03, byte(node, at)?], 0),
            ["local", ..] => wrong(node, "local N"),
            ["if"] | ["if", "condition", "then", "else"] => self.form(node, &[0x05], 3),
            ["when"] | ["when", "guard", "body"] => self.form(node, &[0x06], 2),
            ["block", ref of @ ..] => self.block(node, of),
            ["call", ref of @ ..] => self.call(node, of),
            ["display"] => self.form(node, &[0x0B], 1),
            [word] => self.operator_or_number(node, word),
            [head @ ("if" | "when" | "display"), ..] => alone(node, head),
            [head, ..] if operator(head).is_some() => alone(node, head),
            _ => wrong(node, &expression_words()),
        }
    }

    /// A form's own bytes, then so many parts.
    fn form(&mut self, node: &Node, bytes: &[u8], parts: usize) -> Done {
        if node.parts.len() != parts {
            let what = match parts {
                1 => "1 part below".to_string(),
                _ => format!("{parts} parts below"),
            };
            return wrong_count(node, &what, node.parts.len());
        }
        self.put(node, bytes);
        self.expressions(&node.parts)
    }

    fn expressions(&mut self, nodes: &[Node]) -> Done {
        nodes.iter().try_for_each(|node| self.expression(node))
    }

    fn operator_or_number(&mut self, node: &Node, word: &str) -> Done {
        if let Some((operator, byte)) = operator(word) {
            return self.form(node, &[0x04, byte], operator.operand_count());
        }
        let digits = word.trim_start_matches(['+', '-']);
        if !digits.starts_with(|letter: char| letter.is_ascii_digit()) {
            return wrong(node, &expression_words());
        }
        let [a, b, c, d] = number(node, word)?.to_le_bytes();
        self.form(node, &[0x01, a, b, c, d], 0)
    }

    fn block(&mut self, node: &Node, of: &[&str]) -> Done {
        match of {
            [] => {}
            ["of", count] if count.parse() == Ok(node.parts.len()) => {}
            _ => return wrong(node, &format!("block or block of {}", node.parts.len())),
        }
        self.put(node, &[0x07, count(node, &node.parts, "parts below")?]);
        for statement in &node.parts {
            let byte = match statement.words[..] {
                ["let"] => 0x08,
                ["do"] => 0x09,
                _ => return wrong(statement, "let or do"),
            };
            self.put(statement, &[byte]);
            self.expression(only(statement)?)?;
        }
        Ok(())
    }

    /// Reads and writes of a register are its methods 2i and 2i + 1.
    fn call(&mut self, node: &Node, of: &[&str]) -> Done {
        let [instance, of @ ..] = of else {
            return wrong(node, CALL);
        };
        let method = match of {
            ["method", method] => byte(node, method)?,
            ["read"] => 0,
            ["write"] => 1,
            ["read", at] => 2 * port(node, at)?,
            ["write", at] => 2 * port(node, at)? + 1,
            _ => return wrong(node, CALL),
        };
        let instance = byte(node, instance)?;
        let arguments = count(node, &node.parts, "parts below")?;
        self.put(node, &[0x0A, instance, method, arguments]);
        self.expressions(&node.parts)
    }
}

/// A method's number has room for no more.
fn port(node: &Node, word: &str) -> Done<u8> {
    match word.parse::<u8>() {
        Ok(port @ 0..=127) => Ok(port),
        _ => wrong_word(node, word, "a port from 0 to 127"),
    }
}

fn alone(node: &Node, head: &str) -> Done {
    wrong(node, &format!("{head} alone, and its parts below it"))
}
