//! How far a long run is: one line on a terminal, written over and over.

use std::io::{self, IsTerminal, Stderr, Write};
use std::time::Duration;

/// The time between two lines.
const PAUSE: Duration = Duration::from_millis(250);

pub struct Progress<W> {
    out: W,
    clocks: u32,
    /// When the next line is due.
    due: Duration,
    /// The letters that stand there.
    width: usize,
}

impl Progress<Stderr> {
    /// On standard error, if somebody looks at it.
    pub fn on_terminal(clocks: u32) -> Option<Self> {
        let out = io::stderr();
        out.is_terminal().then(|| Progress::new(out, clocks))
    }
}

impl<W: Write> Progress<W> {
    fn new(out: W, clocks: u32) -> Self {
        Progress {
            out,
            clocks,
            due: PAUSE,
            width: 0,
        }
    }

    /// So many clocks were run in this time.
    pub fn tell(&mut self, count: u32, time: Duration) {
        if time < self.due {
            return;
        }
        self.due = time + PAUSE;
        let words = words(count, self.clocks, time);
        // Spaces wipe out what is left of a longer line.
        self.put(&format!("\r{words:0$}", self.width));
        self.width = self.width.max(words.len());
    }

    pub fn clear(&mut self) {
        /// What a terminal shows of the key that interrupts: ^C.
        const KEY: usize = 2;
        if self.width > 0 {
            self.put(&format!("\r{:1$}\r", "", self.width + KEY));
        }
    }

    /// A terminal that is gone is no reason to stop.
    fn put(&mut self, words: &str) {
        let written = self.out.write_all(words.as_bytes());
        let _ = written.and_then(|()| self.out.flush());
    }
}

fn words(count: u32, clocks: u32, time: Duration) -> String {
    let nanoseconds = time.as_nanos().max(1);
    let rate = u128::from(count) * 1_000_000_000 / nanoseconds;
    let left = u128::from(clocks.saturating_sub(count)) * nanoseconds;
    let seconds = left / u128::from(count.max(1)) / 1_000_000_000;
    let left = time_words(seconds);
    format!("{count} of {clocks} clocks, {rate} a second, {left} left")
}

fn time_words(seconds: u128) -> String {
    let (minutes, hours) = (seconds / 60, seconds / 3600);
    match (hours, minutes) {
        (0, 0) => format!("{seconds} s"),
        (0, _) => format!("{minutes} min {} s", seconds % 60),
        _ => format!("{hours} h {} min", minutes % 60),
    }
}

#[cfg(test)]
mod tests {
    use super::*;

    fn after(milliseconds: u64) -> Duration {
        Duration::from_millis(milliseconds)
    }

    #[test]
    fn one_line_a_few_times_a_second() {
        let mut out = Vec::new();
        let mut progress = Progress::new(&mut out, 4000);
        for time in (0..2000).step_by(100) {
            progress.tell(2 * time, after(time.into()));
        }
        progress.clear();
        let out = String::from_utf8(out).expect("plain letters");
        assert!(!out.contains('\n'));
        let lines: Vec<&str> = out.split('\r').collect();
        // At 300, 600 to 1800 ms, then spaces, and the beginning of the line.
        assert_eq!(lines[0], "");
        assert_eq!(lines[1], "600 of 4000 clocks, 2000 a second, 1 s left");
        assert_eq!(lines[2], "1200 of 4000 clocks, 2000 a second, 1 s left");
        assert_eq!(lines.len(), 1 + 6 + 2);
        assert_eq!(lines[7], " ".repeat(lines[6].len() + "^C".len()));
        assert_eq!(lines[8], "");
    }

    /// A shorter line leaves nothing of a longer one.
    #[test]
    fn longer_lines_are_wiped_out() {
        let mut out = Vec::new();
        let mut progress = Progress::new(&mut out, u32::MAX);
        progress.tell(1_000_000_000, after(1000));
        progress.tell(u32::MAX, after(10_000_000));
        let out = String::from_utf8(out).expect("plain letters");
        let lines: Vec<&str> = out.split('\r').skip(1).collect();
        let first = "1000000000 of 4294967295 clocks, 1000000000 a second, 3 s left";
        let second = "4294967295 of 4294967295 clocks, 429496 a second, 0 s left    ";
        assert_eq!(lines, [first, second]);
    }

    /// A short run tells nothing, and so has nothing to clear.
    #[test]
    fn nothing_at_first() {
        let mut out = Vec::new();
        let mut progress = Progress::new(&mut out, 9);
        progress.tell(0, after(0));
        progress.tell(8, after(249));
        progress.clear();
        assert!(out.is_empty());
    }

    #[test]
    fn times_in_words() {
        for (seconds, words) in [
            (0, "0 s"),
            (59, "59 s"),
            (60, "1 min 0 s"),
            (3599, "59 min 59 s"),
            (3600, "1 h 0 min"),
            (360_059, "100 h 0 min"),
        ] {
            assert_eq!(time_words(seconds), words);
        }
        assert_eq!(
            words(0, 5, after(1000)),
            "0 of 5 clocks, 0 a second, 5 s left"
        );
    }
}
