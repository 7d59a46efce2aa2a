//! How many columns a terminal has.
use std::ffi::{c_int, c_ulong};

#[repr(C)]
#[derive(Default)]
struct Size {
    rows: u16,
    columns: u16,
    wide: u16,
    high: u16,
}

extern "C" {
    fn ioctl(file: c_int, request: c_ulong, ...) -> c_int;
}

pub const OUTPUT: c_int = 1;
pub const ERRORS: c_int = 2;
const GET_SIZE: c_ulong = 0x5413;

/// The columns of the terminal behind a file; 80 where it does not say.
pub fn columns(file: c_int) -> usize {
    let mut size = Size::default();
    // SAFETY: the size is lent for the call.
    let answer = unsafe { ioctl(file, GET_SIZE, &mut size) };
    if answer == 0 && size.columns > 0 {
        return size.columns.into();
    }
    80
}
