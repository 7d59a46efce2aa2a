//! The job sets that a part-plan can hold: checks 1 to 9 and 19, then every set of jobs.
use super::planning::order_checks;
use super::reading::{read, Sheet};

/// How many sets of jobs contain, with each job, all its earlier jobs, or the number of the first check that fails.
pub fn sets(bytes: &[u8]) -> Result<u32, u32> {
    let sheet = read(bytes)?;
    order_checks(&sheet)?;
    Ok(every_set(&sheet))
}

fn every_set(sheet: &Sheet) -> u32 {
    let earlier: Vec<u32> = sheet.jobs.iter().map(|job| job.earlier.iter().map(|i| 1 << i).sum()).collect();
    let has_all = |set: u32| earlier.iter().enumerate().all(|(j, needed)| set >> j & 1 == 0 || set & needed == *needed);
    (0..1 << sheet.jobs.len()).filter(|set| has_all(*set)).count() as u32
}
