//! The depot's planner and share desk for Rust programs: a safe wrapper of the proved static library.
//!
//! [`version`], [`plan`], [`Card`], [`earliest_end`], [`size`], [`usage`], [`slack()`], [`sets`], [`read`], [`label`], [`label_of`], [`write()`],
//! [`Desk`], [`Runner`] and [`Refusal`] are the product. The other modules test it and measure it.

mod card;
mod desk;
pub mod ffi;
mod refusal;
mod runner;
mod sheet;
mod slack;

pub mod compare;
pub mod drawing;
pub mod families;
pub mod guarded;
pub mod lists;
pub mod on_time;
pub mod order;
pub mod plain_search;
pub mod random;
pub mod raw_sheet;
pub mod reference;
pub mod stack;
pub mod two_passes;
pub mod units;

pub use card::{Card, Row};
pub use desk::{Desk, MOST_CONTROLLERS, MOST_POWER};
pub use refusal::Refusal;
pub use runner::{Runner, LARGEST_SIZE};
pub use sheet::{label, label_of, read, write, Job, Reading};
pub use slack::{slack, JobSlack};

/// The most modules of a cabinet.
pub const MOST_MODULES: u16 = 64;

/// The most jobs of a sheet.
pub const MOST_JOBS: usize = 20;

/// How many bytes the longest sheet has.
pub const LONGEST_SHEET: usize = 570;

/// How many bytes the longest label has.
pub const LONGEST_LABEL: usize = 16;

/// How many bytes the longest card has.
pub const LONGEST_CARD: usize = card_length(MOST_JOBS);

/// How many bytes the card of so many jobs has.
pub const fn card_length(jobs: usize) -> usize {
    13 * jobs + 8
}

/// The version of the library that is linked: major, minor, patch.
pub fn version() -> [u32; 3] {
    // SAFETY: the call is lent nothing.
    let number = unsafe { ffi::depot_version() };
    [number / 1_000_000, number / 1_000 % 1_000, number % 1_000]
}

/// Plans the job sheet: the plan that ends first of all valid plans, by the tie rule.
///
/// The card is written to the front of `card`; the bytes behind it stay. `work` is working memory of any length, 0 included:
/// more of it may make the search shorter, what it holds changes nothing, and it is left all zero. A refused call writes no byte.
pub fn plan(sheet: &[u8], card: &mut [u8], work: &mut [u8]) -> Result<(), Refusal> {
    // SAFETY: three live slices, of which none overlaps another; the library keeps no pointer.
    let answer =
        unsafe { ffi::depot_plan(sheet.as_ptr(), sheet.len(), card.as_mut_ptr(), card.len(), work.as_mut_ptr(), work.len()) };
    Refusal::or_done(answer)
}

/// The limit at which [`plan_within`] never gives up.
pub const NO_LIMIT: u64 = u64::MAX;

/// A plan that was found within a limit: the one on the card ends at `end`, and no valid plan of the sheet ends before `bound`. Where it is
/// `exact`, the card is the one that [`plan`] writes.
#[derive(Clone, Copy, Debug, PartialEq, Eq)]
pub struct Limited {
    pub end: u16,
    pub bound: u16,
    pub exact: bool,
}

/// Plans the job sheet as [`plan`] does, and gives up after about `limit` part-plans of the search. The plan on the card is valid.
///
/// `card` and `work` are as for [`plan`]. A refused call writes no byte.
pub fn plan_within(sheet: &[u8], card: &mut [u8], work: &mut [u8], limit: u64) -> Result<Limited, Refusal> {
    let lent = (card.as_mut_ptr(), card.len(), work.as_mut_ptr(), work.len());
    // SAFETY: three live slices, of which none overlaps another; the library keeps no pointer.
    let ffi::Limited { refusal, end, bound, exact } =
        unsafe { ffi::depot_plan_within(sheet.as_ptr(), sheet.len(), lent.0, lent.1, lent.2, lent.3, limit) };
    Refusal::or_done(refusal).map(|()| Limited { end, bound, exact: exact == 1 })
}

/// The end of the plan that [`plan`] gives, without a card: no valid plan of the sheet ends earlier.
///
/// `work` is working memory as for [`plan`]. A refused call writes no byte.
pub fn earliest_end(sheet: &[u8], work: &mut [u8]) -> Result<u16, Refusal> {
    // SAFETY: two live slices that do not overlap; the library keeps no pointer.
    let answer = unsafe { ffi::depot_end(sheet.as_ptr(), sheet.len(), work.as_mut_ptr(), work.len()) };
    Refusal::or_done(answer.refusal).map(|()| answer.end)
}

/// The least module count, 1 to 64, with which some valid plan of the sheet ends by minute `by`. The sheet's own count is not asked for.
///
/// The card that [`plan`] gives for that count is written to the front of `card`; the bytes behind it stay. `work` is working memory as
/// for [`plan`]. A refused call writes no byte.
pub fn size(sheet: &[u8], by: u16, card: &mut [u8], work: &mut [u8]) -> Result<u16, Refusal> {
    let lent = (card.as_mut_ptr(), card.len(), work.as_mut_ptr(), work.len());
    // SAFETY: three live slices, of which none overlaps another; the library keeps no pointer.
    let answer = unsafe { ffi::depot_size(sheet.as_ptr(), sheet.len(), by, lent.0, lent.1, lent.2, lent.3) };
    Refusal::or_done(answer.refusal).map(|()| answer.modules)
}

/// How much of the cabinet a plan uses: a thousand times the module-minutes that jobs occupy is `per_mille` times the product of the
/// modules and the plan's end, plus `remainder`, which is smaller than that product.
#[derive(Clone, Copy, Debug, PartialEq, Eq)]
pub struct Usage {
    pub per_mille: u32,
    pub remainder: u32,
}

/// The use of the cabinet in the plan that [`plan`] gives, without a card; modules that rest are not in use.
///
/// `work` is working memory as for [`plan`]. A refused call writes no byte.
pub fn usage(sheet: &[u8], work: &mut [u8]) -> Result<Usage, Refusal> {
    // SAFETY: two live slices that do not overlap; the library keeps no pointer.
    let ffi::Usage { refusal, per_mille, remainder } =
        unsafe { ffi::depot_use(sheet.as_ptr(), sheet.len(), work.as_mut_ptr(), work.len()) };
    Refusal::or_done(refusal).map(|()| Usage { per_mille, remainder })
}

/// How many sets of jobs a part-plan of the sheet can hold: those that have, with each job, all its earlier jobs. Nothing is planned.
pub fn sets(sheet: &[u8]) -> Result<u32, Refusal> {
    // SAFETY: a live slice; the library keeps no pointer.
    let answer = unsafe { ffi::depot_sets(sheet.as_ptr(), sheet.len()) };
    Refusal::or_done(answer.refusal).map(|()| answer.sets)
}
