//! Ctrl-C while a search is waited for: the first one is noted, and a second one ends the program.
use std::ffi::c_int;
use std::sync::atomic::{AtomicBool, Ordering};

extern "C" {
    fn signal(number: c_int, what: usize) -> usize;
}

const INTERRUPT: c_int = 2;
const ENDS: usize = 0;
const IGNORED: usize = 1;
const FAILED: usize = usize::MAX;

static PRESSED: AtomicBool = AtomicBool::new(false);

/// As long as it lives Ctrl-C is noted; then it does what it did before. A program that was started to ignore it goes on to.
pub struct Listening {
    before: usize,
}

impl Listening {
    pub fn new() -> Listening {
        PRESSED.store(false, Ordering::SeqCst);
        let noted = note as extern "C" fn(c_int) as *const () as usize;
        let before = set(noted);
        if before == IGNORED {
            set(IGNORED);
        }
        Listening { before }
    }

    pub fn is_pressed(&self) -> bool {
        PRESSED.load(Ordering::SeqCst)
    }
}

impl Drop for Listening {
    fn drop(&mut self) {
        set(if self.before == FAILED { ENDS } else { self.before });
    }
}

extern "C" fn note(_: c_int) {
    PRESSED.store(true, Ordering::SeqCst);
    set(ENDS);
}

/// What the signal does from here on; what it did before.
fn set(what: usize) -> usize {
    // SAFETY: no memory is lent; the one function that is given stays, and does only what a handler may.
    unsafe { signal(INTERRUPT, what) }
}
