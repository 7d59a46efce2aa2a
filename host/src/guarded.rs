//! Lent memory between two pages that may not be touched: an access outside it ends the program.
use std::ffi::{c_int, c_void};
use std::ops::Range;
use std::{ptr, slice};

extern "C" {
    fn mmap(address: *mut c_void, length: usize, protection: c_int, flags: c_int, file: c_int, offset: i64) -> *mut c_void;
    fn mprotect(address: *mut c_void, length: usize, protection: c_int) -> c_int;
    fn munmap(address: *mut c_void, length: usize) -> c_int;
}

const PAGE: usize = 4096;
const NO_ACCESS: c_int = 0;
const READ_AND_WRITE: c_int = 1 | 2;
const PRIVATE_AND_ANONYMOUS: c_int = 0x02 | 0x20;
/// What lies beside the lent bytes.
const PAINT: u8 = 0xA5;

/// Which guard page the lent bytes lie against.
#[derive(Clone, Copy, Debug, PartialEq, Eq)]
pub enum Against {
    Front,
    End,
}

/// Whole pages between two guard pages, and where in them the lent bytes lie.
pub struct Guarded {
    pages: *mut u8,
    room: usize,
    lent: Range<usize>,
}

impl Guarded {
    /// Room for so many bytes, rounded up to whole pages.
    pub fn new(length: usize) -> Guarded {
        let room = length.max(1).next_multiple_of(PAGE);
        // SAFETY: a new mapping, of which the pages between the first and the last are made accessible.
        let pages = unsafe {
            let start = mmap(ptr::null_mut(), room + 2 * PAGE, NO_ACCESS, PRIVATE_AND_ANONYMOUS, -1, 0);
            assert_ne!(start as isize, -1, "no memory to map");
            let pages = start.cast::<u8>().add(PAGE);
            assert_eq!(mprotect(pages.cast(), room, READ_AND_WRITE), 0, "the pages stay shut");
            pages
        };
        Guarded { pages, room, lent: 0..0 }
    }

    /// Lends a copy of the bytes, against one of the guard pages; the rest of the room is painted.
    pub fn lend(&mut self, against: Against, bytes: &[u8]) -> &mut [u8] {
        self.lent = match against {
            Against::Front => 0..bytes.len(),
            Against::End => self.room - bytes.len()..self.room,
        };
        let lent = self.lent.clone();
        let all = self.all_mut();
        all[..lent.start].fill(PAINT);
        all[lent.end..].fill(PAINT);
        all[lent.clone()].copy_from_slice(bytes);
        &mut all[lent]
    }

    /// The lent bytes as they now are.
    pub fn left(&self) -> &[u8] {
        &self.all()[self.lent.clone()]
    }

    /// Whether every byte beside them is as it was.
    pub fn rest_untouched(&self) -> bool {
        let all = self.all();
        let beside = [&all[..self.lent.start], &all[self.lent.end..]];
        beside.iter().all(|part| part.iter().all(|byte| *byte == PAINT))
    }

    fn all(&self) -> &[u8] {
        // SAFETY: `room` accessible bytes that this value owns.
        unsafe { slice::from_raw_parts(self.pages, self.room) }
    }

    fn all_mut(&mut self) -> &mut [u8] {
        // SAFETY: as above, and nothing else refers to them.
        unsafe { slice::from_raw_parts_mut(self.pages, self.room) }
    }
}

impl Drop for Guarded {
    fn drop(&mut self) {
        // SAFETY: the mapping that `new` made, in whole.
        unsafe { munmap(self.pages.sub(PAGE).cast(), self.room + 2 * PAGE) };
    }
}
