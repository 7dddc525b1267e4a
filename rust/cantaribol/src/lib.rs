//! Read, check and run designs of guarded rules, clock by clock.
//!
//! A design file has registers, modules with methods, rules and a schedule.
//! In each clock the scheduled rules get their turns in order, and each gets
//! one fate: it fires, or there is a reason why not. What is answered
//! here is answered by the proved library; this crate only lends it buffers
//! and gives its numbers names. No file and no buffer makes it panic; a panic
//! says that the library linked to it is of another version.
//!
//! # Five minutes
//!
//! This design has one register that starts at 5, and one rule that adds 1
//! to it:
//!
//! ```
//! use cantaribol::Design;
//!
//! let file = b"RG\x05\0\0\0UMRL\x11\0\x02\x01\x0A\0\x01\x01\x04\0\
//!              \x0A\0\0\0\x01\x01\0\0\0SC\x01\0";
//! let design = Design::read(file)?;
//! assert_eq!(design.counts().rules, 1);
//! # Ok::<(), cantaribol::Refusal>(())
//! ```
//!
//! Put it on a [`Board`] and give it clocks:
//!
//! ```
//! # use cantaribol::Design;
//! use cantaribol::{Ending, Fate, Outcome};
//!
//! # let file = b"RG\x05\0\0\0UMRL\x11\0\x02\x01\x0A\0\x01\x01\x04\0\x0A\0\0\0\x01\x01\0\0\0SC\x01\0";
//! # let design = Design::read(file).unwrap();
//! let mut board = design.board();
//! assert_eq!(board.clock(), Outcome::Fired { displays: 0 });
//! assert_eq!(board.fates(), [(0, Fate::Fired)]); // rule 0
//! assert_eq!(board.state()[0], 6);               // instance 0
//!
//! assert_eq!(board.run(1000), Ending::Limit { count: 1000 });
//! assert_eq!(board.state()[0], 1006);
//! ```
//!
//! Any bytes get an answer, and an answer that is no design says why:
//!
//! ```
//! use cantaribol::{Design, Refusal};
//!
//! let refusal = Design::read(b"RG\x05\0\0\0UMRL\x11\0").unwrap_err();
//! assert_eq!(refusal, Refusal::CutShort { record: 8 });
//! assert_eq!(
//!     refusal.to_string(),
//!     "the record at offset 8 is cut short by the end of the file (number 2, place 8)"
//! );
//! ```
//!
//! Before a design goes to the bench, [`Design::check`] says whether it
//! passes; one that does never gets stuck.
//!
//! # Which function for what
//!
//! | you have | you want | take |
//! |---|---|---|
//! | bytes | a design, or why not | [`Design::read`] |
//! | a design | its rules and methods as trees | [`Design::records`] |
//! | a design | which state entries are registers | [`Design::registers`] |
//! | a design | the bytes of one body | [`Design::rule_part`], [`Design::method_part`] |
//! | a design | to know that no rule gets stuck | [`Design::check`] |
//! | refusal 8 and its file | the entry at fault | [`Refusal::entry`] |
//! | a design | clocks, with fates and displays | [`Design::board`], then [`Board::clock`] |
//! | a design | only the end of many clocks | [`Board::run`] |
//! | a design and buffers of your own | no memory taken | [`Design::clock`], [`Design::run`] |
//! | the same, and many single clocks | the file read once | [`Design::prepare`], then [`Prepared::clock`] |

#![forbid(unsafe_code)]
#![warn(missing_docs)]

mod board;
mod check;
mod design;
mod entry;
mod prepared;
mod reason;
mod records;
mod refusal;
mod running;

pub use board::Board;
pub use check::{Body, Failure};
pub use design::{Counts, Design};
pub use entry::BadEntry;
pub use prepared::Prepared;
pub use reason::Reason;
pub use records::{Expression, Form, Kind, MethodKind, Operator, Record, Statement};
pub use refusal::Refusal;
pub use running::{Ending, Fate, Outcome, DISPLAY_ROOM, FATE_ROOM};

/// For a number that no archive of this version hands back.
#[cold]
fn unknown(what: &str, number: u8) -> ! {
    panic!("{what} {number} is unknown: the archive and this crate are of different versions")
}
