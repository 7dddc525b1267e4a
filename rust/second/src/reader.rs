//! Reading the design file: bytes to trees, or the first refusal.

mod body;
mod records;

use crate::design::{Design, Refusal};

pub const FILE_LIMIT: usize = 32_768;
pub const INSTANCE_LIMIT: usize = 64;
pub const METHOD_LIMIT: usize = 128;
pub const RULE_LIMIT: usize = 64;
pub const SCHEDULE_LIMIT: usize = 64;
pub const DEPTH_LIMIT: usize = 16;

/// Read a whole file. Number 1 comes first, then the first faulty record.
pub fn read(file: &[u8]) -> Result<Design, Refusal> {
    if file.len() > FILE_LIMIT {
        return Err(Refusal {
            number: 1,
            place: 0,
        });
    }
    records::Records::new(file).read_all()
}
