//! The check: a walk with kinds for values through every method and rule in
//! file order, and then the calls that each rule could make.

mod counts;
mod walk;

use crate::design::{Design, Instance, Method, Refusal, Rule};
use crate::evaluate::CALL_LIMIT;
use crate::value::Reason;

/// The first failure, with the offset of its record.
pub fn check(design: &Design) -> Result<(), Refusal> {
    for body in bodies(design) {
        let (record, walked) = match body {
            Body::Method(own, method) => (method.record, walk::method(design, own, method)),
            Body::Rule(rule) => (rule.record, walk::rule(design, rule)),
        };
        walked.map_err(|reason| failure(reason, record))?;
    }
    // Only now: 27 waits for the end of the walk.
    let counts = counts::Counts::of(design);
    for rule in &design.rules {
        if counts.of_rule(rule) > CALL_LIMIT as u64 {
            return Err(failure(Reason::CallLimit, rule.record));
        }
    }
    Ok(())
}

fn failure(reason: Reason, record: usize) -> Refusal {
    Refusal {
        number: reason.number(),
        place: record,
    }
}

/// A method with the number of its instance, or a rule.
enum Body<'a> {
    Method(usize, &'a Method),
    Rule(&'a Rule),
}

impl Body<'_> {
    fn record(&self) -> usize {
        match self {
            Body::Method(_, method) => method.record,
            Body::Rule(rule) => rule.record,
        }
    }
}

/// Methods and rules as they stand in the file, one among the other.
fn bodies(design: &Design) -> Vec<Body<'_>> {
    let mut all: Vec<Body> = design.rules.iter().map(Body::Rule).collect();
    for (number, instance) in design.instances.iter().enumerate() {
        if let Instance::User { methods } = instance {
            all.extend(methods.iter().map(|method| Body::Method(number, method)));
        }
    }
    all.sort_by_key(Body::record);
    all
}
