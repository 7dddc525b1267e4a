//! The functions as one value. Programs that judge the library take it as
//! such, so that their tests can hand them a lying one in its place.

/// Each function is the archive's where nothing else is said.
pub trait Library {
    fn read(&self, file: &[u8]) -> u64 {
        crate::read(file)
    }

    fn counts(&self, file: &[u8]) -> u64 {
        crate::counts(file)
    }

    fn rule_part(&self, file: &[u8], rule: u64) -> u64 {
        crate::rule_part(file, rule)
    }

    fn method_part(&self, file: &[u8], instance: u64, method: u64) -> u64 {
        crate::method_part(file, instance, method)
    }

    fn check(&self, file: &[u8]) -> u64 {
        crate::check(file)
    }

    fn start(&self, file: &[u8], state: &mut [i32]) -> u64 {
        crate::start(file, state)
    }

    fn clock(&self, file: &[u8], state: &mut [i32], fates: &mut [u8], displays: &mut [i32]) -> u64 {
        crate::clock(file, state, fates, displays)
    }

    fn prepare(&self, file: &[u8], plan: &mut [u16]) -> u64 {
        crate::prepare(file, plan)
    }

    fn tick(
        &self,
        file: &[u8],
        plan: &[u16],
        state: &mut [i32],
        fates: &mut [u8],
        displays: &mut [i32],
        log: &mut [u64],
    ) -> u64 {
        crate::tick(file, plan, state, fates, displays, log)
    }

    fn run(&self, file: &[u8], state: &mut [i32], n: u32) -> u64 {
        crate::run(file, state, n)
    }
}

/// The main program, by its archive.
pub struct Main;

impl Library for Main {}
