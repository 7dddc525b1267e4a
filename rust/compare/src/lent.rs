//! Buffers lent to both programs, with other words around them.

use std::fmt::Display;

use crate::found::{Found, Judged};

/// What a buffer holds: the state and displays numbers, the fates bytes.
pub trait Word: Copy + PartialEq + Display {
    /// A word to stand outside, by its place.
    fn around(at: usize) -> Self;
    /// A word that no program is likely to write there.
    fn blank(at: usize) -> Self;
    /// Another word than this one.
    #[cfg(test)]
    fn other(self) -> Self;
}

impl Word for i32 {
    fn around(at: usize) -> Self {
        0x5A5A_0000 + at as i32
    }

    fn blank(at: usize) -> Self {
        -7 - at as i32
    }

    #[cfg(test)]
    fn other(self) -> Self {
        self ^ 1
    }
}

impl Word for u8 {
    fn around(at: usize) -> Self {
        0xA0 + (at % 64) as u8
    }

    /// No fate: those are 0 to 6.
    fn blank(at: usize) -> Self {
        7 + (at % 100) as u8
    }

    #[cfg(test)]
    fn other(self) -> Self {
        self ^ 1
    }
}

/// The same words for each program. What stands around them is compared as
/// well, so a program that writes outside is found.
pub struct Lent<W = i32> {
    name: &'static str,
    second: Vec<W>,
    main: Vec<W>,
    length: usize,
}

const MARGIN: usize = 9;

impl<W: Word> Lent<W> {
    pub fn of(name: &'static str, words: &[W]) -> Self {
        let mut all: Vec<W> = (0..MARGIN).map(W::around).collect();
        all.extend(words);
        all.extend((0..MARGIN).map(|at| W::around(at + 16)));
        Lent {
            name,
            main: all.clone(),
            second: all,
            length: words.len(),
        }
    }

    pub fn blank(name: &'static str, length: usize) -> Self {
        let words: Vec<W> = (0..length).map(W::blank).collect();
        Lent::of(name, &words)
    }

    /// The second program's words, then the main one's.
    pub fn both(&mut self) -> (&mut [W], &mut [W]) {
        let range = MARGIN..MARGIN + self.length;
        (&mut self.second[range.clone()], &mut self.main[range])
    }

    pub fn words(&self) -> &[W] {
        &self.second[MARGIN..MARGIN + self.length]
    }

    /// What a host does between clocks, the same for both.
    pub fn change(&mut self, change: impl FnOnce(&mut [W])) {
        change(&mut self.second[MARGIN..MARGIN + self.length]);
        self.main.copy_from_slice(&self.second);
    }

    /// Both hold the same, inside and around.
    pub fn agree(&self, question: impl FnOnce() -> String) -> Judged {
        if self.second == self.main {
            return Ok(());
        }
        let mut pairs = self.second.iter().zip(&self.main);
        let at = pairs.position(|(second, main)| second != main).unwrap_or(0);
        let entry = at as i64 - MARGIN as i64;
        let name = self.name;
        Err(Found {
            question: format!("{}, then {name}[{entry}] of {}", question(), self.length),
            second: self.second[at].to_string(),
            main: self.main[at].to_string(),
        })
    }
}

#[cfg(test)]
mod tests {
    use super::*;

    #[test]
    fn writing_outside_is_found() {
        let question = || "here".to_string();
        let mut lent = Lent::of("state", &[1, 2, 3]);
        lent.change(|words| words[1] = 5);
        assert_eq!(lent.words(), [1, 5, 3]);
        assert!(lent.agree(question).is_ok());
        lent.main[MARGIN + 3] = 0;
        let found = lent.agree(question).expect_err("a difference");
        assert!(found.question.ends_with("state[3] of 3"));
        let mut lent = Lent::<u8>::blank("fates", 64);
        assert!(lent.agree(question).is_ok());
        lent.both().0[63] = 0;
        assert!(lent.agree(question).is_err());
    }
}
