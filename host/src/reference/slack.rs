//! Slack: checks 1 to 9 and 19, then every chain of marks, job by job.
use super::planning::{best, order_checks};
use super::reading::{read, Sheet};

/// What is said of a job.
#[derive(Clone, Copy, Debug, PartialEq, Eq)]
pub struct Entry {
    pub latest_start: i64,
    pub slack: i64,
    pub implied: u32,
}

/// An entry for each job, or the number of the first check that fails; there is no card, so 10 is not checked.
pub fn slack(bytes: &[u8]) -> Result<Vec<Entry>, u32> {
    let sheet = read(bytes)?;
    order_checks(&sheet)?;
    let plan = best(&sheet);
    let entry = |job: usize| {
        let chains = chains_from(&sheet, job);
        let latest_start = chains.iter().map(|chain| latest(&sheet, chain)).min().expect("a job is a chain of its own");
        Entry { latest_start, slack: latest_start - i64::from(plan.start_of(job)), implied: implied(&sheet, job) }
    };
    Ok((0..sheet.jobs.len()).map(entry).collect())
}

/// Every chain that begins with the job, itself alone included: each next one waits for the one before it.
pub fn chains_from(sheet: &Sheet, job: usize) -> Vec<Vec<usize>> {
    let mut chains = vec![vec![job]];
    let mut done = 0;
    while done < chains.len() {
        let last = chains[done][chains[done].len() - 1];
        for next in (0..sheet.jobs.len()).filter(|next| sheet.jobs[*next].earlier.contains(&last)) {
            let mut longer = chains[done].clone();
            longer.push(next);
            chains.push(longer);
        }
        done += 1;
    }
    chains
}

/// The departure of a chain's last job less the minutes of all its jobs.
fn latest(sheet: &Sheet, chain: &[usize]) -> i64 {
    let minutes: i64 = chain.iter().map(|job| i64::from(sheet.jobs[*job].minutes)).sum();
    i64::from(sheet.jobs[chain[chain.len() - 1]].departure) - minutes
}

/// The earlier jobs of the job from which a chain of two or more marks leads to it, too.
fn implied(sheet: &Sheet, job: usize) -> u32 {
    let other = |earlier: usize| chains_from(sheet, earlier).iter().any(|chain| chain.len() > 2 && chain[chain.len() - 1] == job);
    sheet.jobs[job].earlier.iter().filter(|earlier| other(**earlier)).map(|earlier| 1 << earlier).sum()
}
