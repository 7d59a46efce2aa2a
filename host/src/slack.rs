//! How long each job may wait, and which earlier-job marks others imply.
use crate::{ffi, Refusal};

/// What is said of a job, beside the plan that [`plan`](crate::plan) gives.
#[repr(C)]
#[derive(Clone, Copy, Debug, Default, PartialEq, Eq)]
pub struct JobSlack {
    /// The latest start by which it and all jobs that follow it can still meet their departures, if modules were unlimited; it may be
    /// below 0.
    pub latest_start: i32,
    /// The latest start minus the planned one: negative where the job, or one that follows it, is late.
    pub slack: i32,
    /// Its earlier jobs for which it waits by another chain already, bit i for job i.
    pub implied: u32,
}

/// The latest start, the slack and the implied marks of each job.
///
/// `work` is working memory as for [`plan`](crate::plan). A refused call writes no byte.
pub fn slack(sheet: &[u8], work: &mut [u8]) -> Result<Vec<JobSlack>, Refusal> {
    // SAFETY: two live slices that do not overlap; the library keeps no pointer.
    let answer = unsafe { ffi::depot_slack(sheet.as_ptr(), sheet.len(), work.as_mut_ptr(), work.len()) };
    Refusal::or_done(answer.refusal).map(|()| answer.jobs[..answer.count].to_vec())
}
