//! Memory between two pages that nobody may touch. A buffer that is lent at
//! its edge has no byte beside it: reading or writing one ends the process.

use std::ffi::{c_int, c_long, c_void};
use std::io;
use std::mem::size_of_val;

extern "C" {
    fn mmap(
        at: *mut c_void,
        length: usize,
        access: c_int,
        flags: c_int,
        file: c_int,
        offset: c_long,
    ) -> *mut c_void;
    fn mprotect(at: *mut c_void, length: usize, access: c_int) -> c_int;
    fn munmap(at: *mut c_void, length: usize) -> c_int;
    fn sysconf(name: c_int) -> c_long;
}

// Linux's numbers.
const NONE: c_int = 0;
const READ: c_int = 1;
const READ_WRITE: c_int = 3;
const PRIVATE_ANONYMOUS: c_int = 0x22;
const PAGE_SIZE: c_int = 30;

/// Which side of a buffer touches the page that nobody may touch.
#[derive(Clone, Copy, Debug, PartialEq, Eq)]
pub enum Edge {
    End,
    Start,
}

/// Some pages, and one without access before and after them.
pub struct Pages {
    base: *mut u8,
    page: usize,
    room: usize,
}

impl Pages {
    /// Room for at least so many bytes.
    pub fn new(bytes: usize) -> io::Result<Self> {
        // SAFETY: it only asks.
        let page = usize::try_from(unsafe { sysconf(PAGE_SIZE) }).map_err(io::Error::other)?;
        let room = bytes.max(1).div_ceil(page) * page;
        let all = room + 2 * page;
        let anywhere = std::ptr::null_mut();
        // SAFETY: new pages, wherever there is place for them.
        let base = unsafe { mmap(anywhere, all, NONE, PRIVATE_ANONYMOUS, -1, 0) };
        if base as isize == -1 {
            return Err(io::Error::last_os_error());
        }
        let pages = Pages {
            base: base.cast(),
            page,
            room,
        };
        pages.allow(READ_WRITE)?;
        Ok(pages)
    }

    fn middle(&self) -> *mut u8 {
        // SAFETY: the mapping is longer than a page.
        unsafe { self.base.add(self.page) }
    }

    fn allow(&self, access: c_int) -> io::Result<()> {
        // SAFETY: the middle pages are this value's own.
        match unsafe { mprotect(self.middle().cast(), self.room, access) } {
            0 => Ok(()),
            _ => Err(io::Error::last_os_error()),
        }
    }

    /// A copy of the words at an edge.
    pub fn lend<W: Copy>(&mut self, words: &[W], edge: Edge) -> &mut [W] {
        let bytes = size_of_val(words);
        assert!(bytes <= self.room, "a buffer longer than its pages");
        let skipped = match edge {
            Edge::End => self.room - bytes,
            Edge::Start => 0,
        };
        // SAFETY: the bytes lie in the middle pages, which are writable while
        // this value is not sealed; both edges are aligned, as pages are.
        unsafe {
            let at = self.middle().add(skipped).cast::<W>();
            at.copy_from_nonoverlapping(words.as_ptr(), words.len());
            std::slice::from_raw_parts_mut(at, words.len())
        }
    }

    /// A copy of the words at an edge that can only be read while it is used.
    pub fn sealed<W: Copy, T>(
        &mut self,
        words: &[W],
        edge: Edge,
        work: impl FnOnce(&[W]) -> T,
    ) -> io::Result<T> {
        let lent: *const [W] = self.lend(words, edge);
        self.allow(READ)?;
        // SAFETY: the words stay where they are until `work` is done.
        let done = work(unsafe { &*lent });
        self.allow(READ_WRITE)?;
        Ok(done)
    }
}

impl Drop for Pages {
    fn drop(&mut self) {
        // SAFETY: nothing borrows from a value that is dropped.
        unsafe { munmap(self.base.cast(), self.room + 2 * self.page) };
    }
}

#[cfg(test)]
mod tests {
    use super::*;

    #[test]
    fn both_edges_hold_what_was_lent() {
        let mut pages = Pages::new(5000).expect("pages");
        let words: Vec<i32> = (0..1250).collect();
        let end = pages.lend(&words, Edge::End);
        assert_eq!(end, words);
        assert_eq!(end.as_ptr_range().end as usize % pages.page, 0);
        let start = pages.lend(&words[..7], Edge::Start);
        assert_eq!(start, &words[..7]);
        assert_eq!(start.as_ptr() as usize % pages.page, 0);
    }

    #[test]
    fn pages_can_be_lent_again_after_the_seal() {
        let mut pages = Pages::new(10).expect("pages");
        let sum = pages.sealed(&[1u8, 2, 3], Edge::End, |words| words.iter().sum::<u8>());
        assert_eq!(sum.expect("sealed"), 6);
        pages.lend(&[4u8], Edge::End)[0] = 5;
    }
}
