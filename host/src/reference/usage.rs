//! The use of the cabinet: checks 1 to 9, 19 and 23, then every module-minute up to the plan's end, one by one.
use super::planning::{best, order_checks, Finished};
use super::reading::read;

/// What is used of a cabinet.
#[derive(Clone, Copy, Debug, PartialEq, Eq)]
pub struct Used {
    pub occupied: u64,
    /// The modules times the plan's end.
    pub all: u64,
}

impl Used {
    /// The largest number of thousandths that are used, and what they leave.
    pub fn per_mille_and_remainder(&self) -> (u64, u64) {
        let thousand = 1000 * self.occupied;
        let per_mille = (0..=1000).rev().find(|per_mille| per_mille * self.all <= thousand).expect("0 is no more");
        (per_mille, thousand - per_mille * self.all)
    }
}

/// The use of the cabinet in the sheet's plan, or the number of the first check that fails.
pub fn used(bytes: &[u8]) -> Result<Used, u32> {
    let sheet = read(bytes)?;
    order_checks(&sheet)?;
    if sheet.jobs.is_empty() {
        return Err(23);
    }
    Ok(counted(&best(&sheet), sheet.modules))
}

/// Marks each module in each minute in which a job runs on it, and counts the marks.
fn counted(plan: &Finished, modules: usize) -> Used {
    let mut busy = vec![vec![false; modules]; plan.end as usize];
    for slot in &plan.slots {
        for minute in slot.start..slot.end {
            slot.modules.iter().for_each(|module| busy[minute as usize][*module] = true);
        }
    }
    let marks = busy.iter().map(|minute| minute.iter().filter(|busy| **busy).count());
    Used { occupied: marks.sum::<usize>() as u64, all: (modules * busy.len()) as u64 }
}
