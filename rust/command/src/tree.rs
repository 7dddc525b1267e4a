//! Expressions as indented lines, each with its offset.

use std::io::{self, Write};

use cantaribol::{Expression, Form, Record, Statement};

/// An offset, and words as far to the right as the depth says.
pub fn line(offset: usize, depth: usize, words: &str, out: &mut dyn Write) -> io::Result<()> {
    let indent = 2 * depth;
    writeln!(out, "{offset:6}  {:indent$}{words}", "")
}

/// What a call's numbers name.
enum Instance {
    /// With its ports; an RG has one.
    Register(u8),
    User,
}

/// What the lines need to know of the design.
pub struct Tree {
    instances: Vec<Instance>,
    schedule: Vec<u8>,
}

impl Tree {
    pub fn of(records: &[Record]) -> Self {
        let mut tree = Tree {
            instances: Vec::new(),
            schedule: Vec::new(),
        };
        for record in records {
            match record {
                Record::Register { ports, .. } => {
                    let ports = ports.unwrap_or(1);
                    tree.instances.push(Instance::Register(ports));
                }
                Record::User { .. } => tree.instances.push(Instance::User),
                Record::Schedule { entries, .. } => tree.schedule.clone_from(entries),
                Record::Method { .. } | Record::Rule { .. } => {}
            }
        }
        tree
    }

    /// A rule's place in the schedule.
    pub fn turn(&self, rule: usize) -> Option<usize> {
        let is_it = |entry: &u8| usize::from(*entry) == rule;
        self.schedule.iter().position(is_it)
    }

    pub fn expression(
        &self,
        expression: &Expression,
        depth: usize,
        out: &mut dyn Write,
    ) -> io::Result<()> {
        line(expression.offset, depth, &self.words(expression), out)?;
        for part in parts(expression) {
            match part {
                Part::Plain(part) => self.expression(part, depth + 1, out)?,
                Part::Stated(word, part) => self.stated(word, part, depth + 1, out)?,
            }
        }
        Ok(())
    }

    /// A statement's byte stands just before its expression.
    fn stated(
        &self,
        word: &str,
        part: &Expression,
        depth: usize,
        out: &mut dyn Write,
    ) -> io::Result<()> {
        line(part.offset - 1, depth, word, out)?;
        self.expression(part, depth + 1, out)
    }

    fn words(&self, expression: &Expression) -> String {
        match &expression.form {
            Form::Number(number) => number.to_string(),
            Form::Bool(truth) => truth.to_string(),
            Form::Local(number) => format!("local {number}"),
            Form::Operator(operator, _) => operator.word().to_string(),
            Form::If { .. } => "if: condition, then, else".to_string(),
            Form::When { .. } => "when: guard, body".to_string(),
            Form::Block(statements) => format!("block of {}", statements.len()),
            Form::Call {
                instance, method, ..
            } => self.call_words(*instance, *method),
            Form::Display(_) => "display".to_string(),
        }
    }

    fn call_words(&self, instance: u8, method: u8) -> String {
        let (port, is_write) = (method / 2, method % 2 == 1);
        let does = if is_write { "write" } else { "read" };
        match self.instances.get(usize::from(instance)) {
            Some(Instance::Register(ports)) if port < *ports => match ports {
                1 => format!("call {instance}.{does}"),
                _ => format!("call {instance}.{does} {port}"),
            },
            _ => format!("call {instance}.method {method}"),
        }
    }
}

enum Part<'a> {
    Plain(&'a Expression),
    Stated(&'static str, &'a Expression),
}

fn parts(expression: &Expression) -> Vec<Part<'_>> {
    match &expression.form {
        Form::Number(_) | Form::Bool(_) | Form::Local(_) => vec![],
        Form::Operator(_, parts)
        | Form::Call {
            arguments: parts, ..
        } => parts.iter().map(Part::Plain).collect(),
        Form::If {
            condition,
            then,
            otherwise,
        } => [condition, then, otherwise]
            .map(|part| Part::Plain(part))
            .into(),
        Form::When { guard, body } => [guard, body].map(|part| Part::Plain(part)).into(),
        Form::Block(statements) => statements
            .iter()
            .map(|statement| match statement {
                Statement::Let(part) => Part::Stated("let", part),
                Statement::Do(part) => Part::Stated("do", part),
            })
            .collect(),
        Form::Display(part) => vec![Part::Plain(part)],
    }
}
