//! Values, and what an evaluation can end as besides a value.

use crate::design::Kind;

#[derive(Clone, Copy, Debug, PartialEq, Eq)]
pub enum Value {
    Void,
    Num(i32),
    Bool(bool),
}

impl Value {
    pub fn kind(self) -> Kind {
        match self {
            Value::Void => Kind::Void,
            Value::Num(_) => Kind::Num,
            Value::Bool(_) => Kind::Bool,
        }
    }
}

/// Why a rule is stuck, or fails the check; the values are the document's.
#[derive(Clone, Copy, Debug, PartialEq, Eq)]
#[repr(u8)]
pub enum Reason {
    WrongKind = 21,
    NoSuchLocal = 22,
    NoSuchInstance = 23,
    NoSuchMethod = 24,
    WrongArgumentCount = 25,
    ActionInPurePlace = 26,
    CallLimit = 27,
    LocalLimit = 28,
}

impl Reason {
    pub fn number(self) -> u8 {
        self as u8
    }
}

/// What ends a whole rule before it has its value.
#[derive(Clone, Copy, Debug, PartialEq, Eq)]
pub enum Halt {
    Unavailable,
    Stuck(Reason),
}

impl From<Reason> for Halt {
    fn from(reason: Reason) -> Self {
        Halt::Stuck(reason)
    }
}
