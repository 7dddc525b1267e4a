//! Interrupts: the first is noticed, the second ends the command at once.

use std::sync::atomic::{AtomicBool, Ordering};

static CAME: AtomicBool = AtomicBool::new(false);

const SIGINT: i32 = 2;

/// What an interrupt does.
#[derive(Clone, Copy)]
enum Handler {
    /// Ends the command.
    Default,
    Ignored,
    Noticed,
}

impl Handler {
    /// The first two are no functions; every system has these numbers.
    fn number(self) -> usize {
        match self {
            Handler::Default => 0,
            Handler::Ignored => 1,
            Handler::Noticed => notice as *const () as usize,
        }
    }
}

extern "C" {
    fn signal(number: i32, handler: usize) -> usize;
}

/// From now on an interrupt is noticed and does not end the command. Whoever
/// started it to go on through interrupts is not interrupted.
pub fn watch() {
    if handle(Handler::Ignored) != Handler::Ignored.number() {
        handle(Handler::Noticed);
    }
}

/// Whether there was one since.
pub fn came() -> bool {
    CAME.load(Ordering::Relaxed)
}

extern "C" fn notice(_: i32) {
    CAME.store(true, Ordering::Relaxed);
    handle(Handler::Default);
}

/// Hands back what was before.
fn handle(handler: Handler) -> usize {
    // SAFETY: `signal` is the C library's, whose handlers are as wide as a
    // pointer. This one is a number that stands for no function, or `notice`,
    // which lives as long as the process and takes an int, as a handler must.
    // `notice` may come between any two instructions: it stores into an
    // atomic, which takes no lock and no memory, and calls `signal`, which is
    // one of the functions that a handler may call.
    unsafe { signal(SIGINT, handler.number()) }
}
