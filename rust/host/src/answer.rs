//! Answers, taken apart.

/// Bits 0 to 7: a refusal, a reason or an ending.
pub fn number(answer: u64) -> u8 {
    answer.to_le_bytes()[0]
}

/// The place of a refusal, or of what fails the check.
pub fn place(answer: u64) -> usize {
    (answer / 256) as usize
}

/// Bits 8 to 15: of a clock that is done, whether a rule fired; of a clock or
/// run that is stuck, its rule.
pub fn middle(answer: u64) -> u8 {
    answer.to_le_bytes()[1]
}

/// The displays that a clock made, or the clocks of a run in which a rule
/// fired.
pub fn count(answer: u64) -> u64 {
    answer / 65_536
}

/// The file or a buffer was refused.
pub fn is_refusal(answer: u64) -> bool {
    (1..=12).contains(&number(answer))
}

/// A clock or a run is stuck, or a design fails the check.
pub fn is_reason(answer: u64) -> bool {
    (21..=28).contains(&number(answer))
}

/// A byte each: instances, methods, rules, schedule entries.
pub fn counts(answer: u64) -> [usize; 4] {
    let [instances, methods, rules, entries, ..] = answer.to_le_bytes().map(usize::from);
    [instances, methods, rules, entries]
}

/// Where a part begins, and its length.
pub fn part(answer: u64) -> (usize, usize) {
    ((answer / 65_536) as usize, (answer % 65_536) as usize)
}

#[cfg(test)]
mod tests {
    use super::*;

    #[test]
    fn refused() {
        let answer = 9 + 256 * 32_768;
        assert_eq!((number(answer), place(answer)), (9, 32_768));
        assert!(is_refusal(answer) && !is_reason(answer));
    }

    #[test]
    fn stuck() {
        let answer = 28 + 256 * 63 + 65_536 * u64::from(u32::MAX);
        assert_eq!((number(answer), middle(answer)), (28, 63));
        assert_eq!(count(answer), u64::from(u32::MAX));
        assert!(is_reason(answer) && !is_refusal(answer));
    }

    #[test]
    fn limit_and_quiet_are_neither() {
        for answer in [0, 100, 256, 65_536] {
            assert!(!is_reason(answer) && !is_refusal(answer));
        }
    }

    #[test]
    fn counts_and_parts() {
        assert_eq!(
            counts(64 + 256 * 128 + 65_536 * 63 + (62 << 24)),
            [64, 128, 63, 62]
        );
        assert_eq!(part(65_536 * 32_700 + 68), (32_700, 68));
        assert_eq!(part(0), (0, 0));
    }
}
