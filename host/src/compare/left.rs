//! What a call leaves of the memory that it was lent, every byte of it, and that no byte beside it is touched.
use crate::guarded::Guarded;

/// Says what the call was about.
type About<'a> = &'a dyn Fn() -> String;

/// A sheet stays as it was.
pub fn sheet(lent: &Guarded, sheet: &[u8], about: About) {
    holds(lent, sheet, about);
}

/// A card has the plan's bytes at its front where the call is answered; every other byte stays.
pub fn card(lent: &Guarded, before: &[u8], written: Option<&[u8]>, about: About) {
    let written = written.unwrap_or(&[]);
    holds(lent, &[written, &before[written.len()..]].concat(), about);
}

/// Working memory is all zero where the call is answered, and stays as it was where it is refused.
pub fn work(lent: &Guarded, before: &[u8], answered: bool, about: About) {
    if answered {
        assert!(lent.left().iter().all(|byte| *byte == 0), "memory of an answered call: {}", about());
    } else {
        assert!(lent.left() == before, "memory of a refused call: {}", about());
    }
    assert!(lent.rest_untouched(), "{}", about());
}

fn holds(lent: &Guarded, bytes: &[u8], about: About) {
    assert_eq!(lent.left(), bytes, "{}", about());
    assert!(lent.rest_untouched(), "{}", about());
}
