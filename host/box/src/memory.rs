//! Lent memory between two pages that can be neither read nor written: a call that leaves it is stopped.
use std::{ffi::c_void, ptr, slice};

extern "C" {
    fn mmap(at: *mut c_void, length: usize, protection: i32, flags: i32, file: i32, offset: i64) -> *mut c_void;
    fn mprotect(at: *mut c_void, length: usize, protection: i32) -> i32;
    fn munmap(at: *mut c_void, length: usize) -> i32;
}

const PAGE: usize = 4096;
const NONE: i32 = 0;
const READ: i32 = 1;
const WRITE: i32 = 2;
const PRIVATE_ANONYMOUS: i32 = 0x22;

/// Bytes at the start or at the end of their pages, and the value of those beside them.
pub struct Memory {
    pages: *mut u8,
    at: usize,
    length: usize,
    /// What the pages beside the bytes hold.
    around: Vec<u8>,
}

impl Memory {
    /// Pages for so many bytes; none of them is lent yet.
    pub fn new(most: usize) -> Self {
        let size = most.div_ceil(PAGE).max(1) * PAGE;
        // Safe: a mapping of its own, of which the pages between the first and the last are opened.
        let pages = unsafe {
            let start = mmap(ptr::null_mut(), size + 2 * PAGE, NONE, PRIVATE_ANONYMOUS, -1, 0);
            assert!(start as isize != -1, "no memory");
            start.cast::<u8>().add(PAGE)
        };
        let memory = Memory { pages, at: 0, length: 0, around: vec![0; size] };
        memory.protect(READ | WRITE);
        memory
    }

    fn protect(&self, protection: i32) {
        // Safe: these pages are this memory's own, and nobody has a reference to them.
        let status = unsafe { mprotect(self.pages.cast(), self.around.len(), protection) };
        assert!(status == 0, "no protection");
    }

    fn all(&mut self) -> &mut [u8] {
        // Safe: these pages are this memory's own, and open.
        unsafe { slice::from_raw_parts_mut(self.pages, self.around.len()) }
    }

    /// Lends these bytes, at the start or at the end of the pages, with `around` beside them.
    pub fn place(&mut self, content: &[u8], at_end: bool, around: u8) {
        self.around.fill(around);
        self.all().fill(around);
        self.at = if at_end { self.around.len() - content.len() } else { 0 };
        self.length = content.len();
        self.bytes().copy_from_slice(content);
    }

    pub fn bytes(&mut self) -> &mut [u8] {
        let (at, length) = (self.at, self.length);
        &mut self.all()[at..at + length]
    }

    /// What a call is given.
    pub fn lent(&mut self) -> (*mut u8, usize) {
        (self.bytes().as_mut_ptr(), self.length)
    }

    /// Whether the bytes are these, and those beside them as they were.
    pub fn holds(&mut self, content: &[u8]) -> bool {
        // Safe: as in `all`.
        let all = unsafe { slice::from_raw_parts(self.pages, self.around.len()) };
        let (at, end) = (self.at, self.at + self.length);
        all[at..end] == *content && all[..at] == self.around[..at] && all[end..] == self.around[end..]
    }

    /// Lets nobody write the bytes, until they may be written again.
    pub fn writable(&mut self, writable: bool) {
        self.protect(if writable { READ | WRITE } else { READ });
    }
}

impl Drop for Memory {
    fn drop(&mut self) {
        // Safe: the whole mapping, which nobody uses any more.
        unsafe { munmap(self.pages.sub(PAGE).cast(), self.around.len() + 2 * PAGE) };
    }
}
