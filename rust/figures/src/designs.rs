//! Designs of which one thing grows and all else stays.

use generator::parts::{always, equal, num, plus, read, rule, times, write};
use generator::record::{Body, Plan, Record};
use generator::samples::p10;

/// So many rules, up to 64, that all fire in every clock: each counts a
/// register up, by port 0 or, from rule 32 on, by port 1.
pub fn rules(count: u8) -> Vec<u8> {
    let register = Record::Concurrent { ports: 2, start: 0 };
    let mut records = vec![register; 32];
    records.push(Record::User);
    for number in 0..count {
        let (at, port) = (number % 32, number / 32);
        let body = write(at, port, plus(read(at, port), num(1)));
        records.push(Record::rule(always(body)));
    }
    records.push(Record::schedule((0..count).collect()));
    Plan::new(records).file()
}

/// So many rules, up to 64, of which only the last fires: the others wait for
/// a register that nobody writes.
pub fn waiting(count: u8) -> Vec<u8> {
    let body = || write(0, 0, plus(read(0, 0), num(1)));
    let mut records = vec![Record::Register { start: 0 }; 2];
    records.push(Record::User);
    for _ in 1..count {
        let guard = equal(read(1, 0), num(1));
        records.push(Record::rule(rule(guard, body())));
    }
    records.push(Record::rule(always(body())));
    records.push(Record::schedule((0..count).collect()));
    Plan::new(records).file()
}

/// One rule of so many calls, up to 64: reads of one register.
pub fn calls(count: u8) -> Vec<u8> {
    Plan::new(vec![
        Record::Register { start: 0 },
        Record::User,
        Record::rule(always(times(count.into(), &read(0, 0)))),
        Record::schedule(vec![0]),
    ])
    .file()
}

/// Where the rules that are not scheduled stand.
#[derive(Clone, Copy, Debug, PartialEq, Eq)]
pub enum Idle {
    Appended,
    Before,
}

/// P10 with rules that are not scheduled, in a file of exactly this length:
/// 33, which is P10 itself, or 600 to 32,768.
pub fn longer(length: usize, idle: Idle) -> Vec<u8> {
    let mut plan = p10();
    let room = length - plan.file().len();
    let count = (room / 520 + 1).min(63);
    if room > 0 {
        let place = match idle {
            Idle::Appended => 3,
            Idle::Before => 2,
        };
        for left in 1..=count {
            // The shares differ by a byte where the room does not divide.
            let share = room / count + usize::from(left <= room % count);
            let body = Body::rule_of_length(share - 4);
            plan.records.insert(place, Record::rule(body));
        }
        if idle == Idle::Before {
            plan.records.pop();
            plan.records.push(Record::schedule(vec![count as u8]));
        }
    }
    plan.file()
}

#[cfg(test)]
mod tests {
    use super::*;

    /// The fates of one clock from the start values.
    fn fates(file: &[u8]) -> Vec<u8> {
        let design = second::read(file).expect("it reads");
        let mut state = vec![0; design.instances.len()];
        second::start(&design, &mut state).expect("as many");
        let (mut fates, mut displays) = ([9; 64], [0; 4096]);
        second::clock(&design, &mut state, &mut fates, &mut displays).expect("room");
        fates[..design.schedule.len()].to_vec()
    }

    #[test]
    fn all_rules_fire() {
        for count in [1, 31, 32, 33, 64] {
            assert_eq!(fates(&rules(count)), vec![0; usize::from(count)]);
        }
    }

    #[test]
    fn all_but_the_last_wait() {
        assert_eq!(fates(&waiting(1)), [0]);
        let sixty_four = fates(&waiting(64));
        assert_eq!(sixty_four[..63], [1; 63]);
        assert_eq!(sixty_four[63], 0);
    }

    #[test]
    fn calls_are_as_many_as_they_say() {
        for count in [1, 2, 32, 63, 64] {
            let file = calls(count);
            assert_eq!(fates(&file), [0]);
            let read = [0x0A, 0, 0, 0];
            let found = file.windows(4).filter(|window| *window == read).count();
            assert_eq!(found, usize::from(count));
        }
    }

    #[test]
    fn lengths_are_exact_and_one_rule_fires() {
        for idle in [Idle::Appended, Idle::Before] {
            for length in [33, 600, 1000, 4096, 16_384, 32_768] {
                let file = longer(length, idle);
                assert_eq!(file.len(), length);
                assert_eq!(fates(&file), [0], "{idle:?} {length}");
            }
        }
    }
}
