//! `show`: the design in readable form.

use std::io::{self, Write};

use cantaribol::{Counts, Design, Kind, Record};

use crate::fault::{Done, Verdict};
use crate::tree::{line, Tree};

pub fn show(design: &Design, out: &mut dyn Write) -> Done {
    print(design, out)?;
    Ok(Verdict::Fine)
}

pub fn print(design: &Design, out: &mut dyn Write) -> io::Result<()> {
    let Counts {
        instances,
        methods,
        rules,
        entries,
    } = design.counts();
    writeln!(
        out,
        "{} bytes: {instances} instances, {methods} methods, {rules} rules, {entries} scheduled",
        design.file().len()
    )?;
    writeln!(out, "offset")?;
    let records = design.records();
    let tree = Tree::of(&records);
    for record in &records {
        record_lines(&tree, record, out)?;
    }
    Ok(())
}

fn record_lines(tree: &Tree, record: &Record, out: &mut dyn Write) -> io::Result<()> {
    let offset = record.offset();
    match record {
        Record::Register { .. } | Record::User { .. } => {
            line(offset, 0, &instance_words(record), out)
        }
        Record::Method { body, .. } => {
            line(offset, 1, &method_words(record), out)?;
            tree.expression(body, 2, out)
        }
        Record::Rule {
            rule, guard, body, ..
        } => {
            line(offset, 1, &rule_words(tree, *rule), out)?;
            line(guard.offset, 2, "guard", out)?;
            tree.expression(guard, 3, out)?;
            line(body.offset, 2, "body", out)?;
            tree.expression(body, 3, out)
        }
        Record::Schedule { entries, .. } => {
            let numbers: String = entries.iter().map(|entry| format!(" {entry}")).collect();
            line(offset, 0, &format!("schedule:{numbers}"), out)
        }
    }
}

fn rule_words(tree: &Tree, rule: usize) -> String {
    match tree.turn(rule) {
        Some(turn) => format!("rule {rule}, entry {turn} of the schedule"),
        None => format!("rule {rule}, not scheduled"),
    }
}

fn instance_words(record: &Record) -> String {
    match record {
        Record::Register {
            instance,
            ports: None,
            start,
            ..
        } => format!("instance {instance}: RG, starts at {start}"),
        Record::Register {
            instance,
            ports: Some(ports),
            start,
            ..
        } => format!("instance {instance}: CR of {ports} ports, starts at {start}"),
        Record::User { instance, .. } => format!("instance {instance}: UM"),
        _ => String::new(),
    }
}

fn method_words(record: &Record) -> String {
    let Record::Method {
        method,
        kind,
        result,
        parameters,
        ..
    } = record
    else {
        return String::new();
    };
    let numbered = |(kind, number): (&Kind, usize)| format!("local {number} {kind:?}");
    let parameters: Vec<String> = parameters.iter().zip(0..).map(numbered).collect();
    let parameters = parameters.join(", ");
    format!("method {method} ({parameters}): {kind:?}, {result:?}")
}
