//! What document 01 allows as an answer, and as content of buffers after it.

use cantaribol_sys::answer::{count, is_reason, middle, number, place};
use cantaribol_sys::{DISPLAY_ROOM, FILE_LIMIT};

use crate::marks::Marks;

pub type Judged<T = ()> = Result<T, String>;

/// The fates of entries that were reached and not stuck.
const REACHED: std::ops::RangeInclusive<u8> = 0..=4;
const STUCK: u8 = 5;
const NOT_REACHED: u8 = 6;

pub fn ensure(holds: bool, otherwise: impl FnOnce() -> String) -> Judged {
    match holds {
        true => Ok(()),
        false => Err(otherwise()),
    }
}

/// A refusal's number goes with its place; 1 is given exactly to long files.
pub fn reading(length: usize, answer: u64) -> Judged {
    let place = place(answer);
    let right = match number(answer) {
        0 => answer == 0,
        1 => place == 0,
        2..=8 => place < length,
        9 => place == length,
        _ => false,
    };
    let long = (length > FILE_LIMIT) == (number(answer) == 1);
    ensure(right && long, || {
        format!("read: {answer} for {length} bytes")
    })
}

/// A design that reads keeps the limits, and its schedule names rules once.
pub fn limits(marks: &Marks) -> Judged {
    let within = marks.starts.len() <= 64 && marks.methods.len() <= 128 && marks.rules.len() <= 64;
    let mut named = marks.schedule.clone();
    named.sort_unstable();
    let once = named.windows(2).all(|pair| pair[0] < pair[1]);
    let there = named
        .iter()
        .all(|rule| usize::from(*rule) < marks.rules.len());
    ensure(within && once && there, || {
        "read: past the limits".to_string()
    })
}

/// Passed, or a reason at a method's or rule's record; 27 only at a rule's.
pub fn check(file: &[u8], marks: &Marks, answer: u64) -> Judged {
    let at = place(answer);
    let placed = marks.bodies.contains(&at) && (number(answer) != 27 || file[at] == b'R');
    ensure(answer == 0 || is_reason(answer) && placed, || {
        format!("check: {answer}")
    })
}

/// Start values for the registers; what stood there for user instances.
pub fn started(marks: &Marks, before: &[i32], after: &[i32]) -> Judged {
    let entries = marks.starts.iter().zip(before);
    let wanted: Vec<i32> = entries
        .map(|(start, stood)| start.unwrap_or(*stood))
        .collect();
    ensure(wanted == after, || {
        format!("start: {after:?} and not {wanted:?}")
    })
}

/// What the lent buffers hold.
#[derive(Clone, Debug, PartialEq, Eq)]
pub struct Held {
    pub state: Vec<i32>,
    pub fates: Vec<u8>,
    pub displays: Vec<i32>,
}

/// A clock that was not refused.
pub fn clock(marks: &Marks, answer: u64, before: &Held, after: &Held) -> Judged {
    let entries = marks.schedule.len();
    let made = count(answer) as usize;
    let wrong = |what: &str| format!("clock: {answer}, {what}, {after:?}");
    ensure(made <= DISPLAY_ROOM, || wrong("too many displays"))?;
    let kept = after.fates[entries..] == before.fates[entries..]
        && after.displays[made..] == before.displays[made..];
    ensure(kept, || wrong("entries past the last"))?;
    ensure(users_kept(marks, before, after), || {
        wrong("a user instance's entry")
    })?;
    let fates = &after.fates[..entries];
    let right = match number(answer) {
        0 => done(answer, fates, before, after),
        21..=28 => stuck(marks, answer, fates) && before.state == after.state,
        _ => false,
    };
    ensure(right, || wrong("fates and state"))
}

fn users_kept(marks: &Marks, before: &Held, after: &Held) -> bool {
    let mut entries = marks
        .starts
        .iter()
        .zip(before.state.iter().zip(&after.state));
    entries.all(|(start, (stood, stands))| start.is_some() || stood == stands)
}

/// Where nothing fires, nothing is written and nothing displayed.
fn done(answer: u64, fates: &[u8], before: &Held, after: &Held) -> bool {
    let fired = fates.contains(&0);
    let still = count(answer) == 0 && before.state == after.state;
    let told = middle(answer) == u8::from(fired);
    told && (fired || still) && fates.iter().all(|fate| REACHED.contains(fate))
}

/// The stuck entry is the answer's rule; all after it are not reached.
fn stuck(marks: &Marks, answer: u64, fates: &[u8]) -> bool {
    let Some(at) = fates.iter().position(|fate| *fate == STUCK) else {
        return false;
    };
    let before = fates[..at].iter().all(|fate| REACHED.contains(fate));
    let after = fates[at + 1..].iter().all(|fate| *fate == NOT_REACHED);
    before && after && marks.schedule[at] == middle(answer)
}
