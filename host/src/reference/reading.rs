//! Reading a job sheet: checks 1 to 7, with 19 behind 3, one after another; and the label of a job, with check 14 behind them.
use std::ops::Range;

/// A job of a sheet.
#[derive(Clone, Debug, PartialEq, Eq)]
pub struct Job {
    pub label_length: usize,
    pub modules: usize,
    pub minutes: u32,
    /// The numbers of the jobs that must have ended first.
    pub earlier: Vec<usize>,
    pub departure: u32,
    /// The first minute at which it may start.
    pub arrival: u32,
}

/// A sheet that reads.
#[derive(Clone, Debug, PartialEq, Eq)]
pub struct Sheet {
    pub jobs: Vec<Job>,
    /// N, the modules in the cabinet.
    pub modules: usize,
    /// The minutes that a module rests between two jobs.
    pub changeover: u32,
}

/// A number of up to eight bytes, little-endian.
pub(super) fn number(bytes: &[u8]) -> u64 {
    bytes.iter().rev().fold(0, |value, byte| value * 256 + u64::from(*byte))
}

/// The sheet's jobs, N and the changeover, or the number of the first check that fails.
pub fn read(bytes: &[u8]) -> Result<Sheet, u32> {
    let length = bytes.len() as u64;
    if !(10..=570).contains(&length) {
        return Err(1);
    }
    let (front, trailer) = bytes.split_at(bytes.len() - 10);
    let offset = number(&trailer[0..4]);
    let n = number(&trailer[4..6]);
    let modules = number(&trailer[6..8]);
    let changeover = number(&trailer[8..10]);
    if n > 20 {
        return Err(2);
    }
    if modules == 0 || modules > 64 {
        return Err(3);
    }
    if changeover > 30 {
        return Err(19);
    }
    if offset + 12 * n + 10 != length {
        return Err(4);
    }
    let (labels, records) = front.split_at(offset as usize);
    let records: Vec<&[u8]> = records.chunks(12).collect();
    if records.iter().any(|record| outside(record, n)) {
        return Err(5);
    }
    if records.iter().map(|record| u64::from(record[0])).sum::<u64>() != labels.len() as u64 {
        return Err(6);
    }
    let lengths = records.iter().map(|record| usize::from(record[0]));
    if some_label_wrong(labels, lengths) {
        return Err(7);
    }
    let jobs = records.iter().map(|record| job(record)).collect();
    Ok(Sheet { jobs, modules: modules as usize, changeover: changeover as u32 })
}

/// Whether one of the labels, of these lengths one behind another, has a byte outside 32 to 126 or a space at an edge.
pub(super) fn some_label_wrong(labels: &[u8], lengths: impl Iterator<Item = usize>) -> bool {
    let mut rest = labels;
    lengths.into_iter().any(|length| {
        let (label, behind) = rest.split_at(length);
        rest = behind;
        label[0] == b' ' || label[length - 1] == b' ' || label.iter().any(|byte| *byte < 32 || *byte > 126)
    })
}

/// Where the label of a job lies in the sheet, or the number of the first check that fails.
pub fn label(bytes: &[u8], job: usize) -> Result<Range<usize>, u32> {
    let jobs = read(bytes)?.jobs;
    let Some(found) = jobs.get(job) else {
        return Err(14);
    };
    let start = jobs[..job].iter().map(|before| before.label_length).sum();
    Ok(start..start + found.label_length)
}

/// Whether a field of the record is outside its range, or it waits for a job that there is not.
pub(super) fn outside(record: &[u8], n: u64) -> bool {
    let label_length = number(&record[0..1]);
    let modules = number(&record[1..2]);
    let minutes = number(&record[2..4]);
    let earlier = number(&record[4..8]);
    let departure = number(&record[8..10]);
    let arrival = number(&record[10..12]);
    !(1..=16).contains(&label_length)
        || !(1..=255).contains(&modules)
        || !(1..=1440).contains(&minutes)
        || departure > 2880
        || arrival > 1440
        || (n..32).any(|bit| earlier >> bit & 1 == 1)
}

fn job(record: &[u8]) -> Job {
    let earlier = number(&record[4..8]);
    Job {
        label_length: number(&record[0..1]) as usize,
        modules: number(&record[1..2]) as usize,
        minutes: number(&record[2..4]) as u32,
        earlier: (0..32).filter(|bit| earlier >> bit & 1 == 1).collect(),
        departure: number(&record[8..10]) as u32,
        arrival: number(&record[10..12]) as u32,
    }
}
