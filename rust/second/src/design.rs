//! A design as trees. Nothing here knows about bytes.

/// Why a file was refused: the document's number, and its place.
#[derive(Clone, Copy, Debug, PartialEq, Eq)]
pub struct Refusal {
    pub number: u8,
    pub place: usize,
}

/// A part of the file; the empty part is `Part::default()`.
#[derive(Clone, Copy, Debug, Default, PartialEq, Eq)]
pub struct Part {
    pub start: usize,
    pub length: usize,
}

#[derive(Clone, Copy, Debug, PartialEq, Eq)]
pub enum Kind {
    Void,
    Num,
    Bool,
}

#[derive(Clone, Copy, Debug, PartialEq, Eq)]
pub enum MethodKind {
    V,
    A,
    AV,
}

#[derive(Clone, Copy, Debug, PartialEq, Eq)]
pub enum Operator {
    Plus,
    Minus,
    Equal,
    Less,
    And,
    Or,
    Not,
}

#[derive(Clone, Debug, PartialEq, Eq)]
pub enum Expr {
    Number(i32),
    Bool(bool),
    Local(u8),
    Operator(Operator, Vec<Expr>),
    If {
        condition: Box<Expr>,
        then: Box<Expr>,
        otherwise: Box<Expr>,
    },
    When {
        guard: Box<Expr>,
        body: Box<Expr>,
    },
    Block(Vec<Statement>),
    Call {
        instance: u8,
        method: u8,
        arguments: Vec<Expr>,
    },
    Display(Box<Expr>),
}

#[derive(Clone, Debug, PartialEq, Eq)]
pub enum Statement {
    Let(Expr),
    Do(Expr),
}

/// A method of a user module instance. `record` is the offset of its mark.
#[derive(Clone, Debug, PartialEq, Eq)]
pub struct Method {
    pub record: usize,
    pub kind: MethodKind,
    pub result: Kind,
    pub parameters: Vec<Kind>,
    pub part: Part,
    pub body: Expr,
}

/// A rule, with the number of the instance it belongs to.
#[derive(Clone, Debug, PartialEq, Eq)]
pub struct Rule {
    pub record: usize,
    pub instance: usize,
    pub part: Part,
    pub guard: Expr,
    pub body: Expr,
}

/// RG counts as a CR with one port, so one case holds both.
#[derive(Clone, Debug, PartialEq, Eq)]
pub enum Instance {
    Register { ports: u8, start: i32 },
    User { methods: Vec<Method> },
}

#[derive(Clone, Debug, Default, PartialEq, Eq)]
pub struct Design {
    pub instances: Vec<Instance>,
    pub rules: Vec<Rule>,
    pub schedule: Vec<u8>,
}

impl Design {
    /// The methods of all user module instances; register methods do not count.
    pub fn method_count(&self) -> usize {
        let in_one = |instance: &Instance| match instance {
            Instance::Register { .. } => 0,
            Instance::User { methods } => methods.len(),
        };
        self.instances.iter().map(in_one).sum()
    }
}

impl Operator {
    pub fn operand_count(self) -> usize {
        match self {
            Operator::Not => 1,
            _ => 2,
        }
    }
}
