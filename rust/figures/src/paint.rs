//! How much stack a work needs: it runs on a painted stack, and what paint is
//! left afterwards was never touched.

use std::ffi::{c_int, c_void};
use std::io;

extern "C" {
    fn pthread_attr_init(attributes: *mut Attributes) -> c_int;
    fn pthread_attr_setstack(attributes: *mut Attributes, at: *mut c_void, size: usize) -> c_int;
    fn pthread_create(
        thread: *mut usize,
        attributes: *const Attributes,
        enter: extern "C" fn(*mut c_void) -> *mut c_void,
        data: *mut c_void,
    ) -> c_int;
    fn pthread_join(thread: usize, answer: *mut *mut c_void) -> c_int;
}

/// More than any Linux needs for a thread's attributes.
#[repr(C, align(16))]
struct Attributes([u8; 256]);

/// A stack is made of these, as it has to begin where a page does.
#[derive(Clone, Copy)]
#[repr(C, align(4096))]
struct Page([u8; 4096]);

const ROOM: usize = 32 << 20;
const PAINT: u8 = 0xA5;
const PAINTED: Page = Page([PAINT; 4096]);

type Act<'a> = &'a mut (dyn FnMut() + Send);

extern "C" fn enter(data: *mut c_void) -> *mut c_void {
    // SAFETY: `high_water` hands over an Act and waits until it is done.
    let act = unsafe { &mut *data.cast::<Act>() };
    act();
    std::ptr::null_mut()
}

/// Bytes of stack from a thread's beginning to the deepest one touched.
pub fn high_water(mut act: Act) -> io::Result<usize> {
    let mut stack = vec![PAINTED; ROOM / size_of::<Page>()];
    // SAFETY: the pages are this function's own, and the thread that has them
    // for its stack ends before they are looked at.
    unsafe { run_on(stack.as_mut_ptr().cast(), (&raw mut act).cast())? };
    let mut bytes = stack.iter().flat_map(|page| &page.0);
    let untouched = bytes.position(|byte| *byte != PAINT);
    Ok(ROOM - untouched.unwrap_or(ROOM))
}

/// SAFETY: `stack` is ROOM bytes that nobody else uses, `data` an Act.
unsafe fn run_on(stack: *mut c_void, data: *mut c_void) -> io::Result<()> {
    let answer = |number: c_int| match number {
        0 => Ok(()),
        _ => Err(io::Error::from_raw_os_error(number)),
    };
    let mut attributes = Attributes([0; 256]);
    let mut thread = 0;
    answer(pthread_attr_init(&raw mut attributes))?;
    answer(pthread_attr_setstack(&raw mut attributes, stack, ROOM))?;
    answer(pthread_create(
        &raw mut thread,
        &raw const attributes,
        enter,
        data,
    ))?;
    answer(pthread_join(thread, std::ptr::null_mut()))
}

#[cfg(test)]
mod tests {
    use super::*;
    use std::hint::black_box;

    fn touch<const BYTES: usize>() {
        black_box(&mut [1u8; BYTES]);
    }

    #[test]
    fn what_is_touched_is_seen() {
        let least = high_water(&mut || {}).expect("a thread");
        let more = high_water(&mut || touch::<500_000>()).expect("a thread");
        assert!(least < 100_000, "{least}");
        assert!(more >= 500_000, "{more}");
        assert!(more < 500_000 + 100_000, "{more}");
    }
}
