//! Both programs reading one file.

use cantaribol_sys::Library;
use second::{read, Design, Instance, Part};

use crate::found::{same, Judged};
use crate::packed;

/// What was compared, when all agreed.
#[derive(Debug, PartialEq, Eq)]
pub struct Agreement {
    /// 0 for a file that reads.
    pub number: u8,
    /// The parts that were asked for.
    pub parts: u64,
}

/// `index` only chooses among the numbers that name nothing.
pub fn judge(library: &dyn Library, file: &[u8], index: usize) -> Judged<Agreement> {
    let answer = read(file);
    let (second, main) = (packed::plain(&answer), library.read(file));
    same(|| "read".to_string(), second, main, packed::plain_words)?;
    let second = answer.as_ref().map_or(0, packed::counts);
    let main = library.counts(file);
    same(|| "counts".to_string(), second, main, packed::counts_words)?;
    let mut asked = Asked {
        library,
        file,
        parts: 0,
    };
    match &answer {
        Ok(design) => asked.all(design, index)?,
        // A sample is enough: no part of a refused file is ever kept.
        Err(_) if index.is_multiple_of(8) => asked.of_refused()?,
        Err(_) => {}
    }
    Ok(Agreement {
        number: answer.err().map_or(0, |refusal| refusal.number),
        parts: asked.parts,
    })
}

/// Numbers that name nothing, though cut to fewer bits some would.
const NONE: [u64; 8] = [64, 255, 256, 257, 65_536, 1 << 32, 1 << 40, u64::MAX];

struct Asked<'a> {
    library: &'a dyn Library,
    file: &'a [u8],
    parts: u64,
}

impl Asked<'_> {
    fn rule(&mut self, rule: u64, part: Part) -> Judged {
        self.parts += 1;
        let main = self.library.rule_part(self.file, rule);
        let question = || format!("part of rule {rule}");
        same(question, packed::part(part), main, packed::part_words)
    }

    fn method(&mut self, instance: u64, method: u64, part: Part) -> Judged {
        self.parts += 1;
        let main = self.library.method_part(self.file, instance, method);
        let question = || format!("part of method {method} of instance {instance}");
        same(question, packed::part(part), main, packed::part_words)
    }

    /// Every part there is, and some that are not.
    fn all(&mut self, design: &Design, index: usize) -> Judged {
        let none = NONE[index % NONE.len()];
        let empty = Part::default();
        for (rule, of_rule) in design.rules.iter().enumerate() {
            self.rule(rule as u64, of_rule.part)?;
        }
        self.rule(design.rules.len() as u64, empty)?;
        self.rule(none, empty)?;
        for (number, instance) in design.instances.iter().enumerate() {
            self.of_instance(number as u64, instance, index)?;
        }
        self.method(design.instances.len() as u64, 0, empty)?;
        self.method(none, 0, empty)
    }

    fn of_instance(&mut self, number: u64, instance: &Instance, index: usize) -> Judged {
        let empty = Part::default();
        match instance {
            // Reads and writes have no body, nor have the numbers after them.
            Instance::Register { .. } => self.method(number, index as u64 % 9, empty),
            Instance::User { methods } => {
                for (method, of_method) in methods.iter().enumerate() {
                    self.method(number, method as u64, of_method.part)?;
                }
                self.method(number, methods.len() as u64, empty)?;
                // 64 would be a method of an instance that has so many.
                let none = NONE[1 + index % (NONE.len() - 1)];
                self.method(number, none, empty)
            }
        }
    }

    fn of_refused(&mut self) -> Judged {
        let empty = Part::default();
        self.rule(0, empty)?;
        self.rule(1, empty)?;
        for instance in 0..4 {
            self.method(instance, 0, empty)?;
        }
        Ok(())
    }
}

#[cfg(test)]
mod tests {
    use super::*;
    use generator::samples::samples;

    /// The second program as a main program, with one lie or none.
    struct Lying(&'static str);

    impl Lying {
        fn tell(&self, name: &str, truth: u64) -> u64 {
            truth + u64::from(self.0 == name)
        }
    }

    impl Library for Lying {
        fn read(&self, file: &[u8]) -> u64 {
            self.tell("read", packed::plain(&read(file)))
        }

        fn counts(&self, file: &[u8]) -> u64 {
            let truth = read(file).as_ref().map_or(0, packed::counts);
            self.tell("counts", truth)
        }

        fn rule_part(&self, file: &[u8], rule: u64) -> u64 {
            let (start, length) = second::rule_part(file, rule);
            let name = if length == 0 { "no rule" } else { "rule" };
            self.tell(name, packed::part(Part { start, length }))
        }

        fn method_part(&self, file: &[u8], instance: u64, method: u64) -> u64 {
            let (start, length) = second::method_part(file, instance, method);
            let name = if length == 0 { "no method" } else { "method" };
            self.tell(name, packed::part(Part { start, length }))
        }
    }

    #[test]
    fn every_lie_is_found() {
        let file = samples()[2].file();
        assert!(judge(&Lying("nothing"), &file, 0).is_ok());
        for lie in ["read", "counts", "rule", "method", "no rule", "no method"] {
            assert!(judge(&Lying(lie), &file, 0).is_err(), "{lie}");
        }
        let refused = &file[..file.len() - 1];
        assert!(judge(&Lying("nothing"), refused, 0).is_ok());
        for lie in ["read", "counts", "no rule", "no method"] {
            assert!(judge(&Lying(lie), refused, 0).is_err(), "{lie}");
        }
    }
}
