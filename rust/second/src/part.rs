//! A rule's guard and body, or a method's body, as its part of the file.

use crate::design::{Design, Instance, Part};
use crate::reader::read;

/// Start and length of a rule's guard and body; (0, 0) is the empty part.
pub fn rule_part(file: &[u8], rule: u64) -> (usize, usize) {
    match read(file) {
        Ok(design) => pair(design.rule_part(rule)),
        Err(_) => pair(Part::default()),
    }
}

/// Start and length of a method's body; (0, 0) is the empty part.
pub fn method_part(file: &[u8], instance: u64, method: u64) -> (usize, usize) {
    match read(file) {
        Ok(design) => pair(design.method_part(instance, method)),
        Err(_) => pair(Part::default()),
    }
}

impl Design {
    pub fn rule_part(&self, rule: u64) -> Part {
        named(&self.rules, rule).map_or(Part::default(), |rule| rule.part)
    }

    /// A register's methods have no body, so theirs is the empty part too.
    pub fn method_part(&self, instance: u64, method: u64) -> Part {
        match named(&self.instances, instance) {
            Some(Instance::User { methods }) => {
                named(methods, method).map_or(Part::default(), |method| method.part)
            }
            Some(Instance::Register { .. }) | None => Part::default(),
        }
    }
}

/// What a number names, if anything; no number is cut down on the way.
fn named<T>(list: &[T], number: u64) -> Option<&T> {
    usize::try_from(number).ok().and_then(|at| list.get(at))
}

fn pair(part: Part) -> (usize, usize) {
    (part.start, part.length)
}
