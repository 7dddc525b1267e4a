//! The main program's C functions, made safe to call. Every answer is one
//! number; `answer` takes it apart.
//!
//! A slice's pointer is never null, so the empty file needs no care.

pub mod answer;
mod library;

pub use library::{Library, Main};

/// The longest file that is read.
pub const FILE_LIMIT: usize = 32_768;

/// The least room for fates.
pub const FATE_ROOM: usize = 64;

/// The least room for displays.
pub const DISPLAY_ROOM: usize = 4_096;

/// The numbers of a plan.
pub const PLAN_SIZE: usize = 1_092;

/// The events that a log has room for.
pub const LOG_ROOM: usize = 4_096;

extern "C" {
    fn cantaribol_read(file: *const u8, file_len: usize) -> u64;
    fn cantaribol_counts(file: *const u8, file_len: usize) -> u64;
    fn cantaribol_rule_part(file: *const u8, file_len: usize, rule: u64) -> u64;
    fn cantaribol_method_part(file: *const u8, file_len: usize, instance: u64, method: u64) -> u64;
    fn cantaribol_check(file: *const u8, file_len: usize) -> u64;
    fn cantaribol_start(file: *const u8, file_len: usize, state: *mut i32, state_len: usize)
        -> u64;
    fn cantaribol_clock(
        file: *const u8,
        file_len: usize,
        state: *mut i32,
        state_len: usize,
        fates: *mut u8,
        fates_len: usize,
        displays: *mut i32,
        displays_len: usize,
    ) -> u64;
    fn cantaribol_prepare(file: *const u8, file_len: usize, plan: *mut u16, plan_len: usize)
        -> u64;
    fn cantaribol_tick(
        file: *const u8,
        file_len: usize,
        plan: *const u16,
        plan_len: usize,
        state: *mut i32,
        state_len: usize,
        fates: *mut u8,
        fates_len: usize,
        displays: *mut i32,
        displays_len: usize,
        log: *mut u64,
        log_len: usize,
    ) -> u64;
    fn cantaribol_run(
        file: *const u8,
        file_len: usize,
        state: *mut i32,
        state_len: usize,
        n: u32,
    ) -> u64;
}

/// 0 when the file reads, else number + 256 * place.
pub fn read(file: &[u8]) -> u64 {
    // SAFETY: pointer and length are those of one slice, which is only read.
    unsafe { cantaribol_read(file.as_ptr(), file.len()) }
}

/// 0 for a refused file, else instances + 256 * methods + 65536 * rules
/// + 2^24 * schedule entries.
pub fn counts(file: &[u8]) -> u64 {
    // SAFETY: as in `read`.
    unsafe { cantaribol_counts(file.as_ptr(), file.len()) }
}

/// 65536 * start + length of a rule's part; 0 for the empty part.
pub fn rule_part(file: &[u8], rule: u64) -> u64 {
    // SAFETY: as in `read`; any rule number is allowed.
    unsafe { cantaribol_rule_part(file.as_ptr(), file.len(), rule) }
}

/// 65536 * start + length of a method's part; 0 for the empty part.
pub fn method_part(file: &[u8], instance: u64, method: u64) -> u64 {
    // SAFETY: as in `read`; any numbers are allowed.
    unsafe { cantaribol_method_part(file.as_ptr(), file.len(), instance, method) }
}

/// 0 when the design passes, else number + 256 * place.
pub fn check(file: &[u8]) -> u64 {
    // SAFETY: as in `read`.
    unsafe { cantaribol_check(file.as_ptr(), file.len()) }
}

/// 0 when the start values are set, else number + 256 * place.
pub fn start(file: &[u8], state: &mut [i32]) -> u64 {
    // SAFETY: each pointer goes with the length of its own slice; the file is
    // only read, and the state is lent for writing.
    unsafe { cantaribol_start(file.as_ptr(), file.len(), state.as_mut_ptr(), state.len()) }
}

/// Number in bits 0 to 7: 0 done, 1 to 12 refused, 21 to 28 stuck. Refused:
/// place = answer / 256. Done: bit 8 says that a rule fired. Stuck: rule =
/// (answer / 256) % 256. Both: displays made = answer / 65536.
pub fn clock(file: &[u8], state: &mut [i32], fates: &mut [u8], displays: &mut [i32]) -> u64 {
    // SAFETY: as in `start`; fates and displays are lent for writing too.
    unsafe {
        cantaribol_clock(
            file.as_ptr(),
            file.len(),
            state.as_mut_ptr(),
            state.len(),
            fates.as_mut_ptr(),
            fates.len(),
            displays.as_mut_ptr(),
            displays.len(),
        )
    }
}

/// 0 when the plan is filled in, 13 where it has under 1,092 numbers, else
/// number + 256 * place.
pub fn prepare(file: &[u8], plan: &mut [u16]) -> u64 {
    // SAFETY: as in `start`, of the plan.
    unsafe { cantaribol_prepare(file.as_ptr(), file.len(), plan.as_mut_ptr(), plan.len()) }
}

/// As `clock`, by a plan that `prepare` filled in of the same file; 13 and 14
/// where plan or log is too short.
pub fn tick(
    file: &[u8],
    plan: &[u16],
    state: &mut [i32],
    fates: &mut [u8],
    displays: &mut [i32],
    log: &mut [u64],
) -> u64 {
    // SAFETY: as in `clock`; the plan is only read, and the log is lent for
    // writing. Any numbers may stand in either.
    unsafe {
        cantaribol_tick(
            file.as_ptr(),
            file.len(),
            plan.as_ptr(),
            plan.len(),
            state.as_mut_ptr(),
            state.len(),
            fates.as_mut_ptr(),
            fates.len(),
            displays.as_mut_ptr(),
            displays.len(),
            log.as_mut_ptr(),
            log.len(),
        )
    }
}

/// Bits 0 to 7: 1 to 10 refused, with place = answer / 256; else the ending,
/// 0 limit, 100 quiet, 21 to 28 stuck with rule = (answer / 256) % 256. With
/// an ending, count = answer / 65536.
pub fn run(file: &[u8], state: &mut [i32], n: u32) -> u64 {
    // SAFETY: as in `start`; any n is allowed.
    unsafe {
        cantaribol_run(
            file.as_ptr(),
            file.len(),
            state.as_mut_ptr(),
            state.len(),
            n,
        )
    }
}
