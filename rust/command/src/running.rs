//! `run`: only how it ends.

mod progress;

use std::io::Write;
use std::time::{Duration, Instant};

use cantaribol::{Board, Design, Ending};

use crate::fault::Done;
use crate::input::Input;
use crate::interrupt;
use crate::listing::{last_line, verdict, End};
use progress::Progress;

/// The time that a piece of a run should take: an interrupt waits no longer.
const PIECE: Duration = Duration::from_millis(100);

pub fn run(input: &Input, design: &Design, clocks: u32, out: &mut dyn Write) -> Done {
    interrupt::watch();
    let mut board = design.board();
    let mut progress = Progress::on_terminal(clocks);
    let begun = Instant::now();
    let (mut size, mut before) = (1, Duration::ZERO);
    let end = in_pieces(&mut board, clocks, |count| {
        let now = begun.elapsed();
        if let Some(progress) = &mut progress {
            progress.tell(count, now);
        }
        size = fitted(size, now - before);
        before = now;
        (!interrupt::came()).then_some(size)
    });
    if let Some(progress) = &mut progress {
        progress.clear();
    }
    last_line(&board, end, out)?;
    verdict(input, end)
}

/// Up to `clocks` clocks. `next` is told how many were run and says how many
/// more make a piece, or that there shall be none.
fn in_pieces(board: &mut Board, clocks: u32, mut next: impl FnMut(u32) -> Option<u32>) -> End {
    let mut before = 0;
    while before < clocks {
        let Some(piece) = next(before) else {
            return End::Interrupted { count: before };
        };
        let ending = after(before, board.run(piece.clamp(1, clocks - before)));
        match ending {
            // Every clock of the piece fired, so there are as many as counted.
            Ending::Limit { count } => before = count,
            Ending::Quiet { .. } | Ending::Stuck { .. } => return End::Of(ending),
        }
    }
    End::Of(Ending::Limit { count: before })
}

/// The ending with the clocks before it.
fn after(before: u32, ending: Ending) -> Ending {
    let count = before + ending.count();
    match ending {
        Ending::Limit { .. } => Ending::Limit { count },
        Ending::Quiet { .. } => Ending::Quiet { count },
        Ending::Stuck { rule, reason, .. } => Ending::Stuck {
            count,
            rule,
            reason,
        },
    }
}

/// As many clocks as a piece has time for, where `size` of them took so long.
fn fitted(size: u32, took: Duration) -> u32 {
    /// A few clocks say little about many.
    const GROWTH: u128 = 8;
    let size = u128::from(size);
    let fit = size * PIECE.as_nanos() / took.as_nanos().max(1);
    fit.clamp(1, size * GROWTH).min(u32::MAX.into()) as u32
}

#[cfg(test)]
mod tests {
    use super::*;
    use generator::bundle::bundle;
    use generator::running::nth_design;

    /// In pieces and at once: the same ending and the same registers.
    #[track_caller]
    fn same_in_pieces(file: &[u8], seen: &mut [u32; 3]) {
        let design = Design::read(file).expect("a design");
        for clocks in [0, 1, 2, 3, 6, 7, 8, 14, 15, 100] {
            let mut whole = design.board();
            let ending = whole.run(clocks);
            for piece in [1, 2, 7, u32::MAX] {
                let mut board = design.board();
                let end = in_pieces(&mut board, clocks, |_| Some(piece));
                assert_eq!(end, End::Of(ending), "{clocks} by {piece}: {file:02X?}");
                assert_eq!(board.state(), whole.state(), "{clocks} by {piece}");
            }
            match ending {
                Ending::Limit { .. } => seen[0] += 1,
                Ending::Quiet { .. } => seen[1] += 1,
                Ending::Stuck { .. } => seen[2] += 1,
            }
        }
    }

    #[test]
    fn pieces_make_the_whole() {
        let mut seen = [0; 3];
        for design in bundle() {
            same_in_pieces(&design.text.bytes(), &mut seen);
        }
        for index in 0..200 {
            same_in_pieces(&nth_design(5, index), &mut seen);
        }
        assert!(seen.iter().all(|seen| *seen > 20), "{seen:?}");
    }

    /// The pieces that were run count, and so do their registers.
    #[test]
    fn interrupted_between_pieces() {
        let file = b"RG\x05\0\0\0UMRL\x11\0\x02\x01\x0A\0\x01\x01\x04\0\
                     \x0A\0\0\0\x01\x01\0\0\0SC\x01\0";
        let design = Design::read(file).expect("a design");
        for (pieces, ran) in [(0, 0), (1, 4), (3, 12)] {
            let mut board = design.board();
            let mut counts = Vec::new();
            let end = in_pieces(&mut board, 14, |count| {
                counts.push(count);
                (counts.len() <= pieces).then_some(4)
            });
            assert_eq!(end, End::Interrupted { count: ran });
            assert_eq!(board.state()[0], 5 + ran as i32);
            assert_eq!(counts, [0, 4, 8, 12][..=pieces]);
        }
        // There is nothing left to interrupt.
        let mut board = design.board();
        let end = in_pieces(&mut board, 14, |count| (count < 14).then_some(7));
        assert_eq!(end, End::Of(Ending::Limit { count: 14 }));
    }

    #[test]
    fn sizes_fit_the_time() {
        let milliseconds = Duration::from_millis;
        assert_eq!(fitted(1000, milliseconds(100)), 1000);
        assert_eq!(fitted(1000, milliseconds(50)), 2000);
        assert_eq!(fitted(1000, milliseconds(400)), 250);
        assert_eq!(fitted(1000, milliseconds(1)), 8000);
        assert_eq!(fitted(1, Duration::ZERO), 8);
        assert_eq!(fitted(1, Duration::from_secs(100)), 1);
        assert_eq!(fitted(u32::MAX, milliseconds(1)), u32::MAX);
    }
}
