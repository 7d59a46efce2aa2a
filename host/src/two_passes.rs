//! The reader of before, which passes twice: over the records, and then over the labels. It stands in an archive of its own,
//! `libtwo_pass.a`, that only the tests and the benchmark link.
use crate::ffi::Reading;

extern "C" {
    fn depot_read_two_passes(sheet: *const u8, sheet_len: usize) -> Reading;
}

/// Reads a job sheet in two passes.
#[inline]
pub fn read(sheet: &[u8]) -> Reading {
    // SAFETY: a live slice; the library keeps no pointer.
    unsafe { depot_read_two_passes(sheet.as_ptr(), sheet.len()) }
}
