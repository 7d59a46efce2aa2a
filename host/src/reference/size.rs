//! The least module count: checks 1 to 7 and 19, then 9, 20 and 10. Every count from 1 on is planned, by every order of the jobs.
use super::planning::{best, some_job_precedes_itself, Finished};
use super::reading::{read, Sheet};

/// The least count with which the sheet's plan ends by the minute, and its card, or the number of the first check that fails; `room` is the
/// lent card's length.
pub fn size(bytes: &[u8], by: u32, room: usize) -> Result<(usize, Vec<u8>), u32> {
    let sheet = read(bytes)?;
    if some_job_precedes_itself(&sheet) {
        return Err(9);
    }
    let served = |modules| plan_on(&sheet, modules).filter(|plan| plan.end <= by).map(|plan| (modules, plan));
    let (modules, plan) = (1..=64).find_map(served).ok_or(20u32)?;
    if room < 13 * sheet.jobs.len() + 8 {
        return Err(10);
    }
    Ok((modules, plan.card()))
}

/// The plan of the same jobs in a cabinet of so many modules, where there is one.
pub fn plan_on(sheet: &Sheet, modules: usize) -> Option<Finished> {
    let narrow = sheet.jobs.iter().all(|job| job.modules <= modules);
    narrow.then(|| best(&Sheet { modules, ..sheet.clone() }))
}
