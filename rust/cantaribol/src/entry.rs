//! Which entry of a refused schedule is at fault.

use std::fmt;

use crate::design::Design;
use crate::refusal::Refusal;

/// The first entry of a schedule that names no rule, or a rule that an entry
/// before it names.
#[derive(Clone, Copy, Debug, PartialEq, Eq, Hash)]
pub struct BadEntry {
    /// Which entry, from 0.
    pub entry: usize,
    /// The number of the rule that it names.
    pub rule: u8,
    /// The entry that names this rule before; none where the rule is missing.
    pub before: Option<usize>,
    /// How many rules there are.
    pub rules: usize,
}

impl fmt::Display for BadEntry {
    fn fmt(&self, out: &mut fmt::Formatter) -> fmt::Result {
        let BadEntry { entry, rule, .. } = self;
        write!(out, "entry {entry} (from 0) names rule {rule}, ")?;
        match (self.before, self.rules) {
            (Some(before), _) => write!(out, "which entry {before} names before it"),
            (None, 0) => write!(out, "which is missing: there are no rules"),
            (None, 1) => write!(out, "which is missing: there is rule 0 only"),
            (None, rules) => write!(out, "which is missing: there are rules 0 to {}", rules - 1),
        }
    }
}

impl Refusal {
    /// For 8, the entry that is at fault in the file that was refused; none
    /// for another refusal or another file.
    ///
    /// ```
    /// use cantaribol::Design;
    ///
    /// let file = b"UMSC\x01\x07";
    /// let refusal = Design::read(file).unwrap_err();
    /// let entry = refusal.entry(file).unwrap();
    /// assert_eq!((entry.entry, entry.rule, entry.before), (0, 7, None));
    /// assert_eq!(
    ///     entry.to_string(),
    ///     "entry 0 (from 0) names rule 7, which is missing: there are no rules"
    /// );
    /// ```
    pub fn entry(self, file: &[u8]) -> Option<BadEntry> {
        let Refusal::BadSchedule { record } = self else {
            return None;
        };
        // The records before it are in order, so with an empty schedule they
        // are a design, whose rules the proved reading counts.
        let others = [file.get(..record)?, b"SC\0"].concat();
        let rules = Design::read_owned(others).ok()?.counts().rules;
        let (count, entries) = file.get(record + 2..)?.split_first()?;
        let entries: Vec<u8> = entries.iter().take((*count).into()).copied().collect();
        entries.iter().enumerate().find_map(|(entry, rule)| {
            let before = entries[..entry].iter().position(|earlier| earlier == rule);
            let is_bad = before.is_some() || usize::from(*rule) >= rules;
            is_bad.then_some(BadEntry {
                entry,
                rule: *rule,
                before,
                rules,
            })
        })
    }
}
