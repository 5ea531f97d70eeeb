//! Memory between two pages that trap: an access one byte before its first or after its last ends the program.

use std::ffi::{c_int, c_void};

/// The bytes of a page on x86-64.
pub const PAGE: usize = 4096;

extern "C" {
    fn mmap(
        at: *mut c_void,
        length: usize,
        access: c_int,
        flags: c_int,
        file: c_int,
        from: i64,
    ) -> *mut c_void;
    fn mprotect(at: *mut c_void, length: usize, access: c_int) -> c_int;
    fn munmap(at: *mut c_void, length: usize) -> c_int;
}

/// No access, and reading with writing (PROT_NONE, PROT_READ | PROT_WRITE); memory of this process alone with
/// no file behind it (MAP_PRIVATE | MAP_ANONYMOUS): Linux's values on x86-64.
const NO_ACCESS: c_int = 0;
const READ_AND_WRITE: c_int = 1 | 2;
const PRIVATE_AND_ANONYMOUS: c_int = 0x02 | 0x20;

/// Whole pages, all zero at first, with a page that traps before them and one after them.
pub struct Pages {
    /// The first page that traps.
    first: *mut u8,
    /// The bytes between the two.
    length: usize,
}

impl Pages {
    /// At least so many bytes.
    pub fn new(bytes: usize) -> Pages {
        let length = bytes.next_multiple_of(PAGE);
        // SAFETY: a new mapping, at a place that the system chooses; then a part of it.
        unsafe {
            let null = std::ptr::null_mut();
            let first = mmap(null, length + 2 * PAGE, NO_ACCESS, PRIVATE_AND_ANONYMOUS, -1, 0);
            assert!(first as isize != -1, "no memory");
            let first = first.cast::<u8>();
            assert_eq!(mprotect(first.add(PAGE).cast(), length, READ_AND_WRITE), 0, "no memory");
            Pages { first, length }
        }
    }

    pub fn bytes(&mut self) -> &mut [u8] {
        // SAFETY: the pages between the two that trap are readable, writable and this value's own.
        unsafe { std::slice::from_raw_parts_mut(self.first.add(PAGE), self.length) }
    }
}

impl Drop for Pages {
    fn drop(&mut self) {
        // SAFETY: the mapping of `new`, which nothing borrows any more.
        unsafe { munmap(self.first.cast(), self.length + 2 * PAGE) };
    }
}

#[cfg(test)]
mod tests {
    use super::*;

    #[test]
    fn whole_pages_that_can_be_written() {
        for (asked, length) in [(1, PAGE), (PAGE, PAGE), (PAGE + 1, 2 * PAGE)] {
            let mut pages = Pages::new(asked);
            assert_eq!(pages.bytes().len(), length);
            assert!(pages.bytes().iter().all(|&byte| byte == 0));
            pages.bytes().fill(7);
            assert_eq!(pages.bytes()[length - 1], 7);
        }
    }
}
