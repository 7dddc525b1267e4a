//! A design file that was read.

use std::borrow::Cow;
use std::ops::Range;

use cantaribol_sys::answer;

use crate::refusal::Refusal;

/// A design file that reads. It holds the file's bytes, or borrows them, and
/// nothing else of weight.
#[derive(Clone, Debug, PartialEq, Eq)]
pub struct Design<'a> {
    file: Cow<'a, [u8]>,
    counts: Counts,
}

/// How much a design holds.
#[derive(Clone, Copy, Debug, PartialEq, Eq, Hash)]
pub struct Counts {
    /// Registers and user modules, at most 64. The state has as many entries.
    pub instances: usize,
    /// Methods of all user modules, at most 128.
    pub methods: usize,
    /// Rules, at most 64.
    pub rules: usize,
    /// Entries of the schedule, at most 64.
    pub entries: usize,
}

impl<'a> Design<'a> {
    /// Read a file, without a copy of its bytes.
    ///
    /// ```
    /// use cantaribol::Design;
    ///
    /// // Two registers and an empty schedule.
    /// let design = Design::read(b"RG\x01\0\0\0RG\x02\0\0\0SC\0")?;
    /// assert_eq!(design.counts().instances, 2);
    /// # Ok::<(), cantaribol::Refusal>(())
    /// ```
    pub fn read(file: &'a [u8]) -> Result<Self, Refusal> {
        Design::of(Cow::Borrowed(file))
    }

    /// Read a file and keep its bytes, so that the design may go anywhere.
    ///
    /// ```
    /// use cantaribol::{Design, Refusal};
    ///
    /// fn load(bytes: Vec<u8>) -> Result<Design<'static>, Refusal> {
    ///     Design::read_owned(bytes)
    /// }
    /// assert!(load(b"SC\0".to_vec()).is_ok());
    /// ```
    pub fn read_owned(file: Vec<u8>) -> Result<Design<'static>, Refusal> {
        Design::of(Cow::Owned(file))
    }

    fn of(file: Cow<'a, [u8]>) -> Result<Self, Refusal> {
        match cantaribol_sys::read(&file) {
            0 => Ok(Design {
                counts: Counts::of(&file),
                file,
            }),
            refused => Err(Refusal::unpacked(refused)),
        }
    }

    /// The bytes of the file.
    pub fn file(&self) -> &[u8] {
        &self.file
    }

    /// Instances, methods, rules and schedule entries.
    pub fn counts(&self) -> Counts {
        self.counts
    }

    /// The scheduled rule numbers in order: SC is the file's last record.
    ///
    /// ```
    /// use cantaribol::Design;
    ///
    /// // Two rules that do nothing; the second goes first.
    /// let design = Design::read(b"UMRL\x07\0\x02\x01\x07\x01\x08\x02\0\
    ///                             RL\x07\0\x02\x01\x07\x01\x08\x02\0SC\x02\x01\0")?;
    /// assert_eq!(design.schedule(), [1, 0]);
    /// # Ok::<(), cantaribol::Refusal>(())
    /// ```
    pub fn schedule(&self) -> &[u8] {
        &self.file[self.file.len() - self.counts.entries..]
    }

    /// A rule's guard and body, as their part of the file; empty for a number
    /// that names no rule.
    ///
    /// ```
    /// use cantaribol::Design;
    ///
    /// let file = b"RG\x05\0\0\0UMRL\x11\0\x02\x01\x0A\0\x01\x01\x04\0\
    ///              \x0A\0\0\0\x01\x01\0\0\0SC\x01\0";
    /// let design = Design::read(file)?;
    /// assert_eq!(design.rule_part(0), &file[12..29]);
    /// assert_eq!(design.rule_range(0), 12..29);
    /// assert!(design.rule_part(1).is_empty());
    /// # Ok::<(), cantaribol::Refusal>(())
    /// ```
    pub fn rule_part(&self, rule: usize) -> &[u8] {
        &self.file[self.rule_range(rule)]
    }

    /// A method's body, as its part of the file; empty for numbers that name
    /// no method of a user module.
    pub fn method_part(&self, instance: usize, method: usize) -> &[u8] {
        &self.file[self.method_range(instance, method)]
    }

    /// Where a rule's guard and body stand in the file.
    pub fn rule_range(&self, rule: usize) -> Range<usize> {
        range(cantaribol_sys::rule_part(&self.file, rule as u64))
    }

    /// Where a method's body stands in the file.
    pub fn method_range(&self, instance: usize, method: usize) -> Range<usize> {
        let (instance, method) = (instance as u64, method as u64);
        range(cantaribol_sys::method_part(&self.file, instance, method))
    }
}

fn range(part: u64) -> Range<usize> {
    let (start, length) = answer::part(part);
    start..start + length
}

impl Counts {
    fn of(file: &[u8]) -> Self {
        let [instances, methods, rules, entries] = answer::counts(cantaribol_sys::counts(file));
        Counts {
            instances,
            methods,
            rules,
            entries,
        }
    }
}
