//! Planning: checks 1 to 10 and 19, then every order of the jobs, each placed minute by minute on numbered modules.
use super::reading::{read, Sheet};

/// A job's place in a plan.
#[derive(Clone, Debug, PartialEq, Eq)]
pub struct Slot {
    pub job: usize,
    pub start: u32,
    pub end: u32,
    pub modules: Vec<usize>,
}

/// The card of the sheet's plan, or the number of the first check that fails; `room` is the lent card's length.
pub fn plan(bytes: &[u8], room: usize) -> Result<Vec<u8>, u32> {
    plan_read(&read(bytes)?, room)
}

/// The end of the sheet's plan, or the number of the first check that fails; there is no card, so 10 is not checked.
pub fn end(bytes: &[u8]) -> Result<u32, u32> {
    let sheet = read(bytes)?;
    order_checks(&sheet)?;
    Ok(best(&sheet).end)
}

/// The card of a sheet that reads: checks 8 to 10.
pub fn plan_read(sheet: &Sheet, room: usize) -> Result<Vec<u8>, u32> {
    order_checks(sheet)?;
    if room < 13 * sheet.jobs.len() + 8 {
        return Err(10);
    }
    Ok(best(sheet).card())
}

/// Checks 8 and 9.
pub fn order_checks(sheet: &Sheet) -> Result<(), u32> {
    if sheet.jobs.iter().any(|job| job.modules > sheet.modules) {
        return Err(8);
    }
    if some_job_precedes_itself(sheet) {
        return Err(9);
    }
    Ok(())
}

/// The plan of a sheet of which 1 to 9 and 19 do not fail.
pub fn best(sheet: &Sheet) -> Finished {
    let mut best: Option<Finished> = None;
    every_list_plan(sheet, &mut |slots| {
        let end = slots.iter().map(|slot| slot.end).max().unwrap_or(0);
        let order: Vec<usize> = slots.iter().map(|slot| slot.job).collect();
        if best.as_ref().is_none_or(|found| (end, &order) < (found.end, &found.order)) {
            best = Some(Finished { end, order, slots: slots.to_vec() });
        }
    });
    best.expect("jobs of which none precedes itself have an order")
}

/// Shows the list plan of every order, its jobs in that order.
pub fn every_list_plan(sheet: &Sheet, show: &mut impl FnMut(&[Slot])) {
    try_every_order(sheet, &mut Vec::new(), show);
}

/// Whether some job would have to end before itself, directly or through others.
pub(super) fn some_job_precedes_itself(sheet: &Sheet) -> bool {
    let n = sheet.jobs.len();
    let mut precedes = vec![vec![false; n]; n];
    for (later, job) in sheet.jobs.iter().enumerate() {
        for earlier in &job.earlier {
            precedes[*earlier][later] = true;
        }
    }
    for through in 0..n {
        for a in 0..n {
            for b in 0..n {
                precedes[a][b] |= precedes[a][through] && precedes[through][b];
            }
        }
    }
    (0..n).any(|job| precedes[job][job])
}

/// A finished list plan. The order of the fields is the tie rule: the earliest end, then the first order in the dictionary.
pub struct Finished {
    pub end: u32,
    pub order: Vec<usize>,
    pub slots: Vec<Slot>,
}

impl Finished {
    /// When a job starts.
    pub fn start_of(&self, job: usize) -> u32 {
        self.slots.iter().find(|slot| slot.job == job).expect("every job is placed").start
    }

    /// The bytes of its card.
    pub fn card(&self) -> Vec<u8> {
        card(&self.slots)
    }
}

/// Goes on from the jobs placed so far to every order of all jobs in which each follows its earlier jobs.
fn try_every_order(sheet: &Sheet, placed: &mut Vec<Slot>, show: &mut impl FnMut(&[Slot])) {
    if placed.len() == sheet.jobs.len() {
        return show(placed);
    }
    for job in 0..sheet.jobs.len() {
        let is_placed = |j: usize| placed.iter().any(|slot| slot.job == j);
        if !is_placed(job) && sheet.jobs[job].earlier.iter().all(|e| is_placed(*e)) {
            let slot = next_slot(sheet, placed, job);
            placed.push(slot);
            try_every_order(sheet, placed, show);
            placed.pop();
        }
    }
}

/// Where a list plan places its next job: minute by minute from the previous start on, on the lowest free modules. A module is not free
/// before it has rested.
fn next_slot(sheet: &Sheet, placed: &[Slot], job: usize) -> Slot {
    let wanted = &sheet.jobs[job];
    let waits = |slot: &&Slot| wanted.earlier.contains(&slot.job);
    let mut start = placed.last().map_or(0, |slot| slot.start).max(wanted.arrival);
    start = start.max(placed.iter().filter(waits).map(|slot| slot.end).max().unwrap_or(0));
    loop {
        let mut free = [true; 64];
        for slot in placed.iter().filter(|slot| slot.start <= start && start < slot.end + sheet.changeover) {
            slot.modules.iter().for_each(|m| free[*m] = false);
        }
        let modules: Vec<usize> = (0..sheet.modules).filter(|m| free[*m]).take(wanted.modules).collect();
        if modules.len() == wanted.modules {
            return Slot { job, start, end: start + wanted.minutes, modules };
        }
        start += 1;
    }
}

/// The plan card: a row of 12 bytes for each job, the order, the trailer.
fn card(slots: &[Slot]) -> Vec<u8> {
    let n = slots.len();
    let mut bytes = Vec::new();
    for job in 0..n {
        let slot = slots.iter().find(|slot| slot.job == job).expect("every job is placed");
        bytes.extend((slot.start as u16).to_le_bytes());
        bytes.extend((slot.end as u16).to_le_bytes());
        let set: u64 = slot.modules.iter().map(|m| 1 << m).sum();
        bytes.extend(set.to_le_bytes());
    }
    bytes.extend(slots.iter().map(|slot| slot.job as u8));
    let end = slots.iter().map(|slot| slot.end).max().unwrap_or(0);
    bytes.extend((12 * n as u32).to_le_bytes());
    bytes.extend((end as u16).to_le_bytes());
    bytes.extend((n as u16).to_le_bytes());
    bytes
}
