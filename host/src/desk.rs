//! The share desk.
use crate::{ffi, Refusal};

/// The most controllers of a desk.
pub const MOST_CONTROLLERS: usize = 8;

/// The largest limit of a feeder, in hundreds of watts.
pub const MOST_POWER: u32 = 400_000;

/// The power that 2 to 8 controllers hold on one feeder, in hundreds of watts, as firmware keeps it.
///
/// The fields are open, as they are to C: a desk that no opening and later calls can leave is refused by every call but opening.
#[repr(C)]
#[derive(Clone, Copy, Debug, Default, PartialEq, Eq, Hash)]
pub struct Desk {
    /// How many controllers there are.
    pub count: u32,
    /// The feeder's limit.
    pub limit: u32,
    /// What each controller holds; 0 past the last.
    pub held: [u32; MOST_CONTROLLERS],
    /// What each controller is assured of; 0 past the last.
    pub assured: [u32; MOST_CONTROLLERS],
    /// What each controller may hold at most; 0 past the last.
    pub ceiling: [u32; MOST_CONTROLLERS],
}

// Two figures and three lists, and nothing between them: two desks that are equal are equal in every byte.
const _: () = assert!(size_of::<Desk>() == 4 * (2 + 3 * MOST_CONTROLLERS));

impl Desk {
    /// Opens a desk with the feeder's limit, up to [`MOST_POWER`], and, for each controller, its assured share and its ceiling.
    pub fn open(limit: u32, assured: &[u32], ceilings: &[u32]) -> Result<Desk, Refusal> {
        let mut desk = Desk::default();
        // SAFETY: a live desk and two live slices; the library keeps no pointer.
        let answer =
            unsafe { ffi::depot_desk_open(&mut desk, limit, assured.as_ptr(), assured.len(), ceilings.as_ptr(), ceilings.len()) };
        Refusal::or_done(answer).map(|()| desk)
    }

    /// Gives the desk a new limit, new shares and new ceilings, for the same controllers; all holdings carry over.
    pub fn change(&mut self, limit: u32, assured: &[u32], ceilings: &[u32]) -> Result<(), Refusal> {
        // SAFETY: a live desk that nothing else refers to, and two live slices; the library keeps no pointer.
        let answer =
            unsafe { ffi::depot_desk_change(self, limit, assured.as_ptr(), assured.len(), ceilings.as_ptr(), ceilings.len()) };
        Refusal::or_done(answer)
    }

    /// Claims power for a controller.
    pub fn claim(&mut self, controller: u32, power: u32) -> Result<(), Refusal> {
        // SAFETY: a live desk that nothing else refers to.
        Refusal::or_done(unsafe { ffi::depot_desk_claim(self, controller, power) })
    }

    /// Hands power of a controller back.
    pub fn hand_back(&mut self, controller: u32, power: u32) -> Result<(), Refusal> {
        // SAFETY: a live desk that nothing else refers to.
        Refusal::or_done(unsafe { ffi::depot_desk_hand_back(self, controller, power) })
    }

    /// The largest claim by a controller that would be granted now, 0 if none.
    pub fn look(&self, controller: u32) -> Result<u32, Refusal> {
        // SAFETY: a live desk, which is read.
        let looked = unsafe { ffi::depot_desk_look(self, controller) };
        Refusal::or_done(looked.refusal).map(|()| looked.power)
    }
}
