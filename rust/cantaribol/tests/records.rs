//! The records are the whole file: written out again they are its bytes, and
//! every offset is right.

use cantaribol::{Design, Expression, Form, Kind, MethodKind, Operator, Record, Statement};
use generator::nth_file;
use generator::samples::samples;

/// A file written again from its records.
#[derive(Default)]
struct Again {
    bytes: Vec<u8>,
}

impl Again {
    fn put(&mut self, bytes: &[u8]) {
        self.bytes.extend(bytes);
    }

    /// The bytes so far must be those before the part.
    fn expression(&mut self, expression: &Expression) {
        assert_eq!(expression.offset, self.bytes.len());
        match &expression.form {
            Form::Number(number) => {
                self.put(&[1]);
                self.put(&number.to_le_bytes());
            }
            Form::Bool(truth) => self.put(&[2, u8::from(*truth)]),
            Form::Local(number) => self.put(&[3, *number]),
            Form::Operator(operator, operands) => {
                self.put(&[4, operator_byte(*operator)]);
                self.expressions(operands);
            }
            Form::If {
                condition,
                then,
                otherwise,
            } => self.form(5, &[condition, then, otherwise]),
            Form::When { guard, body } => self.form(6, &[guard, body]),
            Form::Block(statements) => self.block(statements),
            Form::Call {
                instance,
                method,
                arguments,
            } => {
                self.put(&[10, *instance, *method, arguments.len() as u8]);
                self.expressions(arguments);
            }
            Form::Display(operand) => self.form(11, &[operand]),
        }
    }

    fn form(&mut self, byte: u8, parts: &[&Expression]) {
        self.put(&[byte]);
        for part in parts {
            self.expression(part);
        }
    }

    fn expressions(&mut self, all: &[Expression]) {
        for expression in all {
            self.expression(expression);
        }
    }

    fn block(&mut self, statements: &[Statement]) {
        self.put(&[7, statements.len() as u8]);
        for statement in statements {
            match statement {
                Statement::Let(expression) => {
                    self.put(&[8]);
                    self.expression(expression);
                }
                Statement::Do(expression) => {
                    self.put(&[9]);
                    self.expression(expression);
                }
            }
        }
    }

    fn record(&mut self, design: &Design, record: &Record) {
        assert_eq!(record.offset(), self.bytes.len());
        match record {
            Record::Register { ports, start, .. } => {
                match ports {
                    None => self.put(b"RG"),
                    Some(ports) => self.put(&[b'C', b'R', *ports]),
                }
                self.put(&start.to_le_bytes());
            }
            Record::User { .. } => self.put(b"UM"),
            Record::Method { body, .. } => {
                self.method_head(design, record);
                self.expression(body);
            }
            Record::Rule {
                rule, guard, body, ..
            } => {
                let length = design.rule_part(*rule).len() as u16;
                self.put(b"RL");
                self.put(&length.to_le_bytes());
                self.expression(guard);
                self.expression(body);
                assert_eq!(design.rule_range(*rule), guard.offset..self.bytes.len());
            }
            Record::Schedule { entries, .. } => {
                self.put(&[b'S', b'C', entries.len() as u8]);
                self.put(entries);
            }
        }
    }

    fn method_head(&mut self, design: &Design, record: &Record) {
        let Record::Method {
            instance,
            method,
            kind,
            result,
            parameters,
            ..
        } = record
        else {
            panic!("no method: {record:?}");
        };
        let kind = match kind {
            MethodKind::V => 0,
            MethodKind::A => 1,
            MethodKind::AV => 2,
        };
        let count = parameters.len() as u8;
        self.put(&[b'M', b'D', kind, kind_byte(*result), count]);
        let kinds: Vec<u8> = parameters.iter().map(|kind| kind_byte(*kind)).collect();
        self.put(&kinds);
        let length = design.method_part(*instance, *method).len() as u16;
        self.put(&length.to_le_bytes());
    }
}

fn kind_byte(kind: Kind) -> u8 {
    match kind {
        Kind::Void => 0,
        Kind::Num => 1,
        Kind::Bool => 2,
    }
}

fn operator_byte(operator: Operator) -> u8 {
    match operator {
        Operator::Plus => 0,
        Operator::Minus => 1,
        Operator::Equal => 2,
        Operator::Less => 3,
        Operator::And => 4,
        Operator::Or => 5,
        Operator::Not => 6,
    }
}

fn is_itself_again(file: &[u8]) {
    let design = Design::read(file).expect("a design");
    let records = design.records();
    let mut again = Again::default();
    for record in &records {
        again.record(&design, record);
    }
    assert_eq!(again.bytes, file);
    let Some(Record::Schedule { entries, .. }) = records.last() else {
        panic!("no schedule at the end");
    };
    assert_eq!(entries, design.schedule());
}

/// Instances, methods of an instance and rules are numbered from 0.
fn is_numbered(file: &[u8]) {
    let design = Design::read(file).expect("a design");
    let (mut instances, mut methods, mut all, mut rules) = (0, 0, 0, 0);
    for record in design.records() {
        match record {
            Record::Register { instance, .. } | Record::User { instance, .. } => {
                assert_eq!(instance, instances);
                instances += 1;
                methods = 0;
            }
            Record::Method {
                instance, method, ..
            } => {
                assert_eq!((instance, method), (instances - 1, methods));
                methods += 1;
                all += 1;
            }
            Record::Rule { instance, rule, .. } => {
                assert_eq!((instance, rule), (instances - 1, rules));
                rules += 1;
            }
            Record::Schedule { entries, .. } => assert_eq!(entries.len(), design.counts().entries),
        }
    }
    let counts = design.counts();
    assert_eq!(
        (instances, all, rules),
        (counts.instances, counts.methods, counts.rules)
    );
}

#[test]
fn samples_are_themselves_again() {
    for plan in samples() {
        is_itself_again(&plan.file());
        is_numbered(&plan.file());
    }
}

#[test]
fn random_files_are_themselves_again() {
    let mut read = 0;
    for index in 0..3000 {
        let file = nth_file(11, index);
        if second::read(&file).is_ok() {
            is_itself_again(&file);
            is_numbered(&file);
            read += 1;
        }
    }
    assert!(read > 1000, "only {read} files read");
}
