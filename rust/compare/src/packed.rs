//! The second program's answers, packed as the main program packs its own,
//! and such answers in words.

use cantaribol_sys::answer::{self, count, middle, number, place};
use second::{Clocked, Design, Ending, Part, Refusal, Run};

pub fn refusal(refusal: &Refusal) -> u64 {
    u64::from(refusal.number) + 256 * refusal.place as u64
}

/// Done, or refused, or failed: number + 256 * place.
pub fn plain<T>(answer: &Result<T, Refusal>) -> u64 {
    answer.as_ref().map_or_else(refusal, |_| 0)
}

/// A byte each.
pub fn counts(design: &Design) -> u64 {
    let counts = [
        design.instances.len(),
        design.method_count(),
        design.rules.len(),
        design.schedule.len(),
    ];
    counts
        .iter()
        .rev()
        .fold(0, |sum, count| sum * 256 + *count as u64)
}

pub fn part(part: Part) -> u64 {
    65_536 * part.start as u64 + part.length as u64
}

pub fn clock(answer: &Result<Clocked, Refusal>) -> u64 {
    match answer {
        Err(refused) => refusal(refused),
        Ok(Clocked::Done { fired, displays }) => {
            256 * u64::from(*fired) + 65_536 * *displays as u64
        }
        Ok(Clocked::Stuck {
            rule,
            reason,
            displays,
        }) => stuck(*rule, reason.number(), *displays as u64),
    }
}

pub fn run(answer: &Result<Run, Refusal>) -> u64 {
    match answer {
        Err(refused) => refusal(refused),
        Ok(Run { ending, count }) => match ending {
            Ending::Limit => 65_536 * u64::from(*count),
            Ending::Quiet => 100 + 65_536 * u64::from(*count),
            Ending::Stuck { rule, reason } => stuck(*rule, reason.number(), u64::from(*count)),
        },
    }
}

fn stuck(rule: u8, number: u8, many: u64) -> u64 {
    u64::from(number) + 256 * u64::from(rule) + 65_536 * many
}

pub fn plain_words(answer: u64) -> String {
    match answer {
        0 => "0 (done)".to_string(),
        _ => format!("{answer} ({} at {})", number(answer), place(answer)),
    }
}

pub fn counts_words(answer: u64) -> String {
    format!("{answer} ({:?})", answer::counts(answer))
}

pub fn part_words(answer: u64) -> String {
    let (start, length) = answer::part(answer);
    format!("{answer} ({length} bytes from {start})")
}

pub fn clock_words(answer: u64) -> String {
    let (middle, many) = (middle(answer), count(answer));
    match number(answer) {
        0 => format!("{answer} (done, fired {middle}, {many} displays)"),
        1..=20 => plain_words(answer),
        number => format!("{answer} (rule {middle} stuck with {number}, {many} displays)"),
    }
}

pub fn run_words(answer: u64) -> String {
    let (rule, many) = (middle(answer), count(answer));
    match number(answer) {
        0 => format!("{answer} (limit, count {many})"),
        100 => format!("{answer} (quiet, count {many})"),
        1..=20 => plain_words(answer),
        number => format!("{answer} (rule {rule} stuck with {number}, count {many})"),
    }
}

#[cfg(test)]
mod tests {
    use super::*;
    use generator::samples::samples;
    use second::{read, Reason};

    #[test]
    fn refusals() {
        let refused = Refusal {
            number: 9,
            place: 700,
        };
        assert_eq!(plain(&Ok(())), 0);
        assert_eq!(plain::<()>(&Err(refused)), 9 + 256 * 700);
        assert_eq!(clock(&Err(refused)), 9 + 256 * 700);
        assert_eq!(run(&Err(refused)), 9 + 256 * 700);
    }

    #[test]
    fn counts_are_a_byte_each() {
        let design = read(&samples()[2].file()).expect("a design");
        assert_eq!(counts(&design), 4 + 256 * 4 + 65_536 * 2 + (2 << 24));
    }

    #[test]
    fn clocks() {
        let done = Clocked::Done {
            fired: true,
            displays: 4096,
        };
        assert_eq!(clock(&Ok(done)), 256 + 65_536 * 4096);
        let stuck = Clocked::Stuck {
            rule: 63,
            reason: Reason::LocalLimit,
            displays: 2,
        };
        assert_eq!(clock(&Ok(stuck)), 28 + 256 * 63 + 65_536 * 2);
    }

    #[test]
    fn runs() {
        let count = u32::MAX;
        let of = |ending| run(&Ok(Run { ending, count }));
        let most = 65_536 * u64::from(count);
        assert_eq!(of(Ending::Limit), most);
        assert_eq!(of(Ending::Quiet), most + 100);
        let ending = Ending::Stuck {
            rule: 5,
            reason: Reason::WrongKind,
        };
        assert_eq!(of(ending), most + 256 * 5 + 21);
    }
}
