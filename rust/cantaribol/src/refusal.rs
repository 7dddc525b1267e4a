//! Why a file or a buffer was refused.

use std::error::Error;
use std::fmt;

use cantaribol_sys::answer;

use crate::unknown;

/// A refusal, with the number and the place of document 01. A refusal changes
/// no buffer.
///
/// `record` is the offset of the mark of the record that is at fault.
///
/// ```
/// use cantaribol::{Design, Refusal};
///
/// let refusal = Design::read(b"").unwrap_err();
/// assert_eq!(refusal, Refusal::NoSchedule { length: 0 });
/// assert_eq!((refusal.number(), refusal.place()), (9, 0));
/// ```
#[derive(Clone, Copy, Debug, PartialEq, Eq, Hash)]
pub enum Refusal {
    /// 1: the file is over 32,768 bytes.
    FileTooLong,
    /// 2: a record is cut short by the end of the file.
    CutShort {
        /// Where the record begins.
        record: usize,
    },
    /// 3: an unknown mark.
    UnknownMark {
        /// Where the mark stands.
        record: usize,
    },
    /// 4: MD or RL when the latest instance is no UM, or any byte after SC.
    Misplaced {
        /// The first byte of what is misplaced.
        at: usize,
    },
    /// 5: the 65th instance, the 129th method or the 65th rule.
    TooMany {
        /// Where the record begins.
        record: usize,
    },
    /// 6: a field outside a body is out of its range, or kind and result
    /// disagree.
    OutOfRange {
        /// Where the record begins.
        record: usize,
    },
    /// 7: an unknown or out-of-range byte in a body, depth 17, or a body that
    /// is not exactly its expressions.
    BadBody {
        /// Where the record begins.
        record: usize,
    },
    /// 8: the schedule names a missing rule, or one twice.
    BadSchedule {
        /// Where the record begins.
        record: usize,
    },
    /// 9: the file ends without SC.
    NoSchedule {
        /// The length of the file.
        length: usize,
    },
    /// 10: the state's length is not the instance count.
    StateLength,
    /// 11: the fate buffer has under 64 entries.
    FateRoom,
    /// 12: the display buffer has under 4,096 entries.
    DisplayRoom,
}

impl Refusal {
    /// Document 01's number, 1 to 12.
    pub fn number(self) -> u8 {
        match self {
            Refusal::FileTooLong => 1,
            Refusal::CutShort { .. } => 2,
            Refusal::UnknownMark { .. } => 3,
            Refusal::Misplaced { .. } => 4,
            Refusal::TooMany { .. } => 5,
            Refusal::OutOfRange { .. } => 6,
            Refusal::BadBody { .. } => 7,
            Refusal::BadSchedule { .. } => 8,
            Refusal::NoSchedule { .. } => 9,
            Refusal::StateLength => 10,
            Refusal::FateRoom => 11,
            Refusal::DisplayRoom => 12,
        }
    }

    /// Document 01's place: an offset in the file, or 0.
    pub fn place(self) -> usize {
        match self {
            Refusal::CutShort { record }
            | Refusal::UnknownMark { record }
            | Refusal::TooMany { record }
            | Refusal::OutOfRange { record }
            | Refusal::BadBody { record }
            | Refusal::BadSchedule { record } => record,
            Refusal::Misplaced { at } => at,
            Refusal::NoSchedule { length } => length,
            Refusal::FileTooLong
            | Refusal::StateLength
            | Refusal::FateRoom
            | Refusal::DisplayRoom => 0,
        }
    }

    /// From number + 256 * place.
    pub(crate) fn unpacked(answer: u64) -> Self {
        let place = answer::place(answer);
        match answer::number(answer) {
            1 => Refusal::FileTooLong,
            2 => Refusal::CutShort { record: place },
            3 => Refusal::UnknownMark { record: place },
            4 => Refusal::Misplaced { at: place },
            5 => Refusal::TooMany { record: place },
            6 => Refusal::OutOfRange { record: place },
            7 => Refusal::BadBody { record: place },
            8 => Refusal::BadSchedule { record: place },
            9 => Refusal::NoSchedule { length: place },
            10 => Refusal::StateLength,
            11 => Refusal::FateRoom,
            12 => Refusal::DisplayRoom,
            number => unknown("refusal", number),
        }
    }

    fn words(self) -> &'static str {
        match self {
            Refusal::FileTooLong => "the file is over 32,768 bytes",
            Refusal::CutShort { .. } => "is cut short by the end of the file",
            Refusal::UnknownMark { .. } => "begins with an unknown mark",
            Refusal::Misplaced { .. } => {
                "stands a method or rule whose latest instance is no user module, \
                 or a byte after the schedule"
            }
            Refusal::TooMany { .. } => "is the 65th instance, the 129th method or the 65th rule",
            Refusal::OutOfRange { .. } => {
                "has a field out of its range, or a kind and a result that disagree"
            }
            Refusal::BadBody { .. } => {
                "has a body with an unknown or out-of-range byte, or of depth 17, \
                 or that is not exactly its expressions"
            }
            Refusal::BadSchedule { .. } => "names a missing rule, or one twice",
            Refusal::NoSchedule { .. } => "the file ends without a schedule",
            Refusal::StateLength => "the state's length is not the instance count",
            Refusal::FateRoom => "the fate buffer has under 64 entries",
            Refusal::DisplayRoom => "the display buffer has under 4,096 entries",
        }
    }
}

impl fmt::Display for Refusal {
    fn fmt(&self, out: &mut fmt::Formatter) -> fmt::Result {
        let (number, place, words) = (self.number(), self.place(), self.words());
        match self {
            Refusal::Misplaced { .. } => write!(out, "at offset {place} {words}")?,
            Refusal::BadSchedule { .. } => write!(out, "the schedule at offset {place} {words}")?,
            Refusal::NoSchedule { .. } => write!(out, "{words}, at offset {place}")?,
            Refusal::FileTooLong
            | Refusal::StateLength
            | Refusal::FateRoom
            | Refusal::DisplayRoom => out.write_str(words)?,
            _ => write!(out, "the record at offset {place} {words}")?,
        }
        write!(out, " (number {number}, place {place})")
    }
}

impl Error for Refusal {}
