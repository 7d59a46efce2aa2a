//! The plan runner.
use crate::{ffi, Desk, Refusal, LONGEST_CARD, LONGEST_SHEET};

/// The largest module, in hundreds of watts.
pub const LARGEST_SIZE: u32 = 10_000;

/// A runner between two minutes: it follows a card's plan on a desk, for one controller.
///
/// Behind an accepted start every call of its steps is granted, whatever the other controllers do: as long as its controller makes no
/// other call before the last hand-back, and no change takes that controller's share below N times the size of a module.
///
/// The fields are open, as they are to C: a runner that no accepted start and later steps can leave is refused by every step.
#[repr(C)]
#[derive(Clone, Copy, Debug, PartialEq, Eq, Hash)]
pub struct Runner {
    /// The controller for which it calls.
    pub controller: u32,
    /// The size of a module, in hundreds of watts.
    pub size: u32,
    /// The minute that the next step does.
    pub minute: u32,
    /// The sheet's length.
    pub sheet_len: usize,
    /// The sheet's bytes; 0 past the last.
    pub sheet: [u8; LONGEST_SHEET],
    /// The card's length.
    pub card_len: usize,
    /// The card's bytes; 0 past the last.
    pub card: [u8; LONGEST_CARD],
}

impl Runner {
    /// A refused start's runner, which every step refuses.
    pub const NONE: Runner = Runner {
        controller: 0,
        size: 0,
        minute: 0,
        sheet_len: 0,
        sheet: [0; LONGEST_SHEET],
        card_len: 0,
        card: [0; LONGEST_CARD],
    };

    /// Starts a runner for a controller, with modules of this size, up to [`LARGEST_SIZE`] hundreds of watts. The desk is only read.
    pub fn start(sheet: &[u8], card: &[u8], desk: &Desk, controller: u32, size: u32) -> Result<Runner, Refusal> {
        // SAFETY: two live slices, which are read; the library keeps no pointer.
        let answer =
            unsafe { ffi::depot_runner_start(sheet.as_ptr(), sheet.len(), card.as_ptr(), card.len(), *desk, controller, size) };
        Refusal::or_done(answer.refusal).map(|()| answer.runner)
    }

    /// Does the next minute on the desk: the hand-backs and then the claims that fall due. Refused, desk and runner are as before.
    pub fn step(&mut self, desk: &mut Desk) -> Result<(), Refusal> {
        // SAFETY: the call is lent nothing.
        let answer = unsafe { ffi::depot_runner_step(*self, *desk) };
        Refusal::or_done(answer.refusal)?;
        (*self, *desk) = (answer.runner, answer.desk);
        Ok(())
    }
}
