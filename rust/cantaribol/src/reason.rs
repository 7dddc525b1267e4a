//! Why a rule is stuck, or a design fails the check.

use std::fmt;

/// Numbers 21 to 28 of document 01.
///
/// ```
/// use cantaribol::Reason;
///
/// assert_eq!(Reason::WrongKind.number(), 21);
/// assert_eq!(Reason::WrongKind.to_string(), "wrong kind of value");
/// ```
#[derive(Clone, Copy, Debug, PartialEq, Eq, Hash)]
pub enum Reason {
    /// 21: a value is of another kind than its place wants.
    WrongKind,
    /// 22: a local that is not live.
    NoSuchLocal,
    /// 23: the called instance is missing, or not below the caller's.
    NoSuchInstance,
    /// 24: the called instance has no such method or port.
    NoSuchMethod,
    /// 25: a call with a wrong number of arguments.
    WrongArgumentCount,
    /// 26: a write, display, A or AV method in a guard, a condition or a V
    /// body.
    ActionInPurePlace,
    /// 27: the rule's 65th call.
    CallLimit,
    /// 28: the body's 17th live local.
    LocalLimit,
}

/// All reasons, in the order of their numbers.
const REASONS: [Reason; 8] = [
    Reason::WrongKind,
    Reason::NoSuchLocal,
    Reason::NoSuchInstance,
    Reason::NoSuchMethod,
    Reason::WrongArgumentCount,
    Reason::ActionInPurePlace,
    Reason::CallLimit,
    Reason::LocalLimit,
];

impl Reason {
    /// Document 01's number, 21 to 28.
    pub fn number(self) -> u8 {
        match self {
            Reason::WrongKind => 21,
            Reason::NoSuchLocal => 22,
            Reason::NoSuchInstance => 23,
            Reason::NoSuchMethod => 24,
            Reason::WrongArgumentCount => 25,
            Reason::ActionInPurePlace => 26,
            Reason::CallLimit => 27,
            Reason::LocalLimit => 28,
        }
    }

    /// The reason with this number, if there is one.
    pub fn of(number: u8) -> Option<Self> {
        REASONS.into_iter().find(|reason| reason.number() == number)
    }
}

impl fmt::Display for Reason {
    fn fmt(&self, out: &mut fmt::Formatter) -> fmt::Result {
        out.write_str(match self {
            Reason::WrongKind => "wrong kind of value",
            Reason::NoSuchLocal => "no such local",
            Reason::NoSuchInstance => "instance missing or not below the caller's",
            Reason::NoSuchMethod => "no such method or port",
            Reason::WrongArgumentCount => "wrong argument count",
            Reason::ActionInPurePlace => "action in a pure place",
            Reason::CallLimit => "65th call",
            Reason::LocalLimit => "17th live local",
        })
    }
}
