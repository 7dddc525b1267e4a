//! Where the records of a file stand, found by their marks and lengths alone.

#[derive(Clone, Copy, Debug, PartialEq, Eq)]
pub struct Part {
    pub start: usize,
    pub length: usize,
}

impl Part {
    /// As the library hands a part out.
    pub fn packed(self) -> u64 {
        65_536 * self.start as u64 + self.length as u64
    }
}

#[derive(Debug, Default, PartialEq, Eq)]
pub struct Marks {
    /// Of each instance its start value; nothing of a user one.
    pub starts: Vec<Option<i32>>,
    /// Of each method the instance it belongs to and its body.
    pub methods: Vec<(usize, Part)>,
    /// Of each rule its guard and body.
    pub rules: Vec<Part>,
    /// The places of the MD and RL records.
    pub bodies: Vec<usize>,
    pub schedule: Vec<u8>,
}

impl Marks {
    /// Nothing where the records do not fill the file up to a schedule.
    pub fn of(file: &[u8]) -> Option<Self> {
        let mut marks = Marks::default();
        let mut at = 0;
        loop {
            at = match file.get(at..at + 2)? {
                b"SC" => {
                    let count = usize::from(*file.get(at + 2)?);
                    marks.schedule = file.get(at + 3..at + 3 + count)?.to_vec();
                    return (at + 3 + count == file.len()).then_some(marks);
                }
                b"MD" | b"RL" => marks.body(file, at)?,
                _ => marks.instance(file, at)?,
            };
        }
    }

    /// The place after the instance's record.
    fn instance(&mut self, file: &[u8], at: usize) -> Option<usize> {
        let skipped = match file.get(at..at + 2)? {
            b"RG" => 2,
            b"CR" => 3,
            b"UM" => {
                self.starts.push(None);
                return Some(at + 2);
            }
            _ => return None,
        };
        let value = file.get(at + skipped..)?.first_chunk()?;
        self.starts.push(Some(i32::from_le_bytes(*value)));
        Some(at + skipped + 4)
    }

    /// The place after the method or rule.
    fn body(&mut self, file: &[u8], at: usize) -> Option<usize> {
        let is_method = file[at] == b'M';
        let length_at = match is_method {
            true => at + 5 + usize::from(*file.get(at + 4)?),
            false => at + 2,
        };
        let length = u16::from_le_bytes(*file.get(length_at..)?.first_chunk()?);
        let part = Part {
            start: length_at + 2,
            length: usize::from(length),
        };
        self.bodies.push(at);
        match is_method {
            true => self.methods.push((self.starts.len().checked_sub(1)?, part)),
            false => self.rules.push(part),
        }
        Some(part.start + part.length)
    }

    /// A byte for each count, as the library packs them.
    pub fn counts(&self) -> u64 {
        let counts = [
            self.starts.len(),
            self.methods.len(),
            self.rules.len(),
            self.schedule.len(),
        ];
        counts
            .iter()
            .rev()
            .fold(0, |packed, count| 256 * packed + *count as u64)
    }

    /// The part of a method of an instance; 0 where there is none.
    pub fn method_part(&self, instance: u64, method: u64) -> u64 {
        let own = |(owner, _): &&(usize, Part)| *owner as u64 == instance;
        let nth = usize::try_from(method).ok();
        let found = nth.and_then(|nth| self.methods.iter().filter(own).nth(nth));
        found.map_or(0, |(_, part)| part.packed())
    }

    pub fn rule_part(&self, rule: u64) -> u64 {
        let nth = usize::try_from(rule).ok();
        let found = nth.and_then(|nth| self.rules.get(nth));
        found.map_or(0, |part| part.packed())
    }
}

#[cfg(test)]
mod tests {
    use super::*;
    use generator::samples::{p10, queue};

    #[test]
    fn the_records_of_p10() {
        let marks = Marks::of(&p10().file()).expect("records");
        assert_eq!(marks.starts, [Some(5), None]);
        assert_eq!(marks.bodies, [8]);
        assert_eq!(marks.rule_part(0), 65_536 * 12 + 17);
        assert_eq!(marks.rule_part(1), 0);
        assert_eq!(marks.schedule, [0]);
        assert_eq!(marks.counts(), 2 + 65_536 + (1 << 24));
    }

    #[test]
    fn methods_are_numbered_in_their_instance() {
        let file = queue().file();
        let marks = Marks::of(&file).expect("records");
        assert_ne!(marks.method_part(2, 0), 0);
        assert_ne!(marks.method_part(2, 1), marks.method_part(2, 0));
        assert_eq!(marks.method_part(2, 2), 0);
        assert_eq!(marks.method_part(3, 0), 0);
        assert_eq!(Marks::of(&file[..file.len() - 1]), None);
    }
}
