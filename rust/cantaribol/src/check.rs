//! The check of a whole design.

use std::error::Error;
use std::fmt;

use cantaribol_sys::answer::{number, place};

use crate::design::Design;
use crate::reason::Reason;
use crate::records::Record;
use crate::unknown;

/// The first failure of the check.
#[derive(Clone, Copy, Debug, PartialEq, Eq, Hash)]
pub struct Failure {
    /// What is wrong.
    pub reason: Reason,
    /// The offset of the method's or rule's record.
    pub record: usize,
    /// The method or rule.
    pub body: Body,
}

/// A method or a rule.
#[derive(Clone, Copy, Debug, PartialEq, Eq, Hash)]
pub enum Body {
    /// A method of a user module.
    Method {
        /// Whose it is.
        instance: usize,
        /// Its number within the instance.
        method: usize,
    },
    /// A rule.
    Rule {
        /// Its number through the file.
        rule: usize,
    },
}

impl fmt::Display for Body {
    fn fmt(&self, out: &mut fmt::Formatter) -> fmt::Result {
        match self {
            Body::Method { instance, method } => {
                write!(out, "method {method} of instance {instance}")
            }
            Body::Rule { rule } => write!(out, "rule {rule}"),
        }
    }
}

impl fmt::Display for Failure {
    fn fmt(&self, out: &mut fmt::Formatter) -> fmt::Result {
        let Failure {
            reason,
            record,
            body,
        } = self;
        let number = reason.number();
        write!(
            out,
            "{reason} in {body}, at offset {record} (number {number}, place {record})"
        )
    }
}

impl Error for Failure {}

impl Design<'_> {
    /// Whether this design keeps the rules of kinds and calls. One that
    /// passes never gets stuck, whatever its registers hold; one that fails
    /// may.
    ///
    /// ```
    /// use cantaribol::{Design, Reason};
    ///
    /// // A rule whose guard is the number 1, and not true.
    /// let file = b"RG\0\0\0\0UMRL\x0E\0\x01\x01\0\0\0\
    ///              \x0A\0\x01\x01\x01\x02\0\0\0SC\x01\0";
    /// let failure = Design::read(file).unwrap().check().unwrap_err();
    /// assert_eq!(failure.reason, Reason::WrongKind);
    /// assert_eq!(
    ///     failure.to_string(),
    ///     "wrong kind of value in rule 0, at offset 8 (number 21, place 8)"
    /// );
    /// ```
    pub fn check(&self) -> Result<(), Failure> {
        let answer = cantaribol_sys::check(self.file());
        if answer == 0 {
            return Ok(());
        }
        let record = place(answer);
        match Reason::of(number(answer)) {
            Some(reason) => Err(Failure {
                reason,
                record,
                body: self.body_at(record),
            }),
            None => unknown("check answer", number(answer)),
        }
    }

    fn body_at(&self, offset: usize) -> Body {
        let records = self.records();
        let body = records.iter().find_map(|record| match record {
            Record::Method {
                offset: at,
                instance,
                method,
                ..
            } if *at == offset => Some(Body::Method {
                instance: *instance,
                method: *method,
            }),
            Record::Rule {
                offset: at, rule, ..
            } if *at == offset => Some(Body::Rule { rule: *rule }),
            _ => None,
        });
        // The proved check names the record of a method or of a rule.
        body.expect("a method or a rule at the offset of a failure")
    }
}
