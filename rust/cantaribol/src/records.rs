//! The records of a design as trees, each part with its offset in the file.

mod body;
mod reading;

use crate::design::Design;

/// A record, in the order of the file.
#[derive(Clone, Debug, PartialEq, Eq)]
pub enum Record {
    /// RG or CR: instance `instance`.
    Register {
        /// Where the record begins.
        offset: usize,
        /// Its number.
        instance: usize,
        /// The ports of a CR; none for an RG, which counts as one port.
        ports: Option<u8>,
        /// The start value.
        start: i32,
    },
    /// UM: instance `instance`.
    User {
        /// Where the record begins.
        offset: usize,
        /// Its number.
        instance: usize,
    },
    /// MD: a method of the latest instance.
    Method {
        /// Where the record begins.
        offset: usize,
        /// The instance it belongs to.
        instance: usize,
        /// Its number within the instance.
        method: usize,
        /// V, A or AV.
        kind: MethodKind,
        /// The declared kind of its result.
        result: Kind,
        /// The kinds of its parameters; these are locals 0 and up.
        parameters: Vec<Kind>,
        /// What a call of it does.
        body: Expression,
    },
    /// RL: a rule of the latest instance.
    Rule {
        /// Where the record begins.
        offset: usize,
        /// The instance it belongs to.
        instance: usize,
        /// Its number through the file.
        rule: usize,
        /// Whether it may fire.
        guard: Expression,
        /// What it does.
        body: Expression,
    },
    /// SC: the last record.
    Schedule {
        /// Where the record begins.
        offset: usize,
        /// Rule numbers, in the order of their turns.
        entries: Vec<u8>,
    },
}

/// The kind of a value.
#[derive(Clone, Copy, Debug, PartialEq, Eq, Hash)]
pub enum Kind {
    /// No value.
    Void,
    /// A signed number of 32 bits.
    Num,
    /// True or false.
    Bool,
}

/// The kind of a method.
#[derive(Clone, Copy, Debug, PartialEq, Eq, Hash)]
pub enum MethodKind {
    /// Gives a value and does nothing else.
    V,
    /// Does something.
    A,
    /// Does something and gives a value.
    AV,
}

/// An operator.
#[derive(Clone, Copy, Debug, PartialEq, Eq, Hash)]
pub enum Operator {
    /// Sum, modulo 2^32.
    Plus,
    /// Difference, modulo 2^32.
    Minus,
    /// Are two numbers the same?
    Equal,
    /// Is the left one below the right one?
    Less,
    /// Both.
    And,
    /// One, or both.
    Or,
    /// The other one.
    Not,
}

impl Operator {
    /// All operators, in the order of their numbers.
    pub const ALL: [Operator; 7] = [
        Operator::Plus,
        Operator::Minus,
        Operator::Equal,
        Operator::Less,
        Operator::And,
        Operator::Or,
        Operator::Not,
    ];

    /// One for not, two for the others.
    pub fn operand_count(self) -> usize {
        match self {
            Operator::Not => 1,
            _ => 2,
        }
    }

    /// Document 01's word.
    pub fn word(self) -> &'static str {
        match self {
            Operator::Plus => "plus",
            Operator::Minus => "minus",
            Operator::Equal => "equal",
            Operator::Less => "less",
            Operator::And => "and",
            Operator::Or => "or",
            Operator::Not => "not",
        }
    }
}

/// An expression, with where its first byte stands in the file.
#[derive(Clone, Debug, PartialEq, Eq)]
pub struct Expression {
    /// The offset of its first byte.
    pub offset: usize,
    /// What it is.
    pub form: Form,
}

/// The forms of expressions.
#[derive(Clone, Debug, PartialEq, Eq)]
pub enum Form {
    /// A number.
    Number(i32),
    /// A truth.
    Bool(bool),
    /// A parameter, or a let of an open block.
    Local(u8),
    /// An operator and its operands.
    Operator(Operator, Vec<Expression>),
    /// Only the arm taken is evaluated.
    If {
        /// Which arm.
        condition: Box<Expression>,
        /// Taken when it holds.
        then: Box<Expression>,
        /// Taken when not.
        otherwise: Box<Expression>,
    },
    /// The body, or unavailable.
    When {
        /// Whether it is available.
        guard: Box<Expression>,
        /// What it is then.
        body: Box<Expression>,
    },
    /// Statements in order.
    Block(Vec<Statement>),
    /// A call of a method. The numbers may name none: reading does not test
    /// them.
    Call {
        /// The called instance.
        instance: u8,
        /// The called method; 2i and 2i + 1 are read i and write i of a
        /// register.
        method: u8,
        /// What the parameters become.
        arguments: Vec<Expression>,
    },
    /// Shows a number.
    Display(Box<Expression>),
}

/// A statement of a block.
#[derive(Clone, Debug, PartialEq, Eq)]
pub enum Statement {
    /// Binds the next local.
    Let(Expression),
    /// Only evaluates.
    Do(Expression),
}

impl Record {
    /// Where the record begins: the offset of its mark.
    pub fn offset(&self) -> usize {
        match self {
            Record::Register { offset, .. }
            | Record::User { offset, .. }
            | Record::Method { offset, .. }
            | Record::Rule { offset, .. }
            | Record::Schedule { offset, .. } => *offset,
        }
    }
}

impl Design<'_> {
    /// The whole design as trees, in file order.
    ///
    /// ```
    /// use cantaribol::{Design, Form, Record};
    ///
    /// let design = Design::read(b"UMRL\x08\0\x02\x01\x0B\x01\x07\0\0\0SC\x01\0")?;
    /// let records = design.records();
    /// let Record::Rule { guard, body, .. } = &records[1] else { panic!() };
    /// assert_eq!(guard.form, Form::Bool(true));
    /// assert!(matches!(body.form, Form::Display(_)));
    /// assert_eq!(body.offset, 8);
    /// # Ok::<(), cantaribol::Refusal>(())
    /// ```
    pub fn records(&self) -> Vec<Record> {
        // The proved reading says that the file is exactly its records.
        reading::records(self.file()).expect("a file that reads has its records")
    }

    /// The instances that are registers, and so have a value in the state;
    /// the others are user modules.
    ///
    /// ```
    /// use cantaribol::Design;
    ///
    /// let design = Design::read(b"RG\x05\0\0\0UMCR\x02\x06\0\0\0SC\0")?;
    /// assert_eq!(design.registers(), [0, 2]);
    /// # Ok::<(), cantaribol::Refusal>(())
    /// ```
    pub fn registers(&self) -> Vec<usize> {
        let number = |record: &Record| match record {
            Record::Register { instance, .. } => Some(*instance),
            _ => None,
        };
        self.records().iter().filter_map(number).collect()
    }
}
