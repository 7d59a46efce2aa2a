//! Job sheets, written byte by byte; nothing is checked, so that wrong ones can be made too.
use crate::random::Random;
use crate::Job;

/// How many bytes a record has.
const RECORD: usize = 12;

/// How many bytes a record and the trailer of a layout have: those of before have no arrival, or no changeover.
#[derive(Clone, Copy, Debug, PartialEq, Eq)]
pub enum Layout {
    BeforeArrivals,
    BeforeChangeovers,
    Today,
}

impl Layout {
    /// Those that were before today's.
    pub const OLDER: [Layout; 2] = [Layout::BeforeArrivals, Layout::BeforeChangeovers];

    fn record(self) -> usize {
        if self == Layout::BeforeArrivals {
            RECORD - 2
        } else {
            RECORD
        }
    }
}

fn record(job: &Job) -> [u8; RECORD] {
    let mut bytes = [0; RECORD];
    bytes[0] = job.label_len;
    bytes[1] = job.modules;
    bytes[2..4].copy_from_slice(&job.minutes.to_le_bytes());
    bytes[4..8].copy_from_slice(&job.earlier.to_le_bytes());
    bytes[8..10].copy_from_slice(&job.departure.to_le_bytes());
    bytes[10..12].copy_from_slice(&job.arrival.to_le_bytes());
    bytes
}

/// Marks earlier jobs along a random order, each with this chance of a hundred, so that no job waits for itself.
pub fn mark_earlier(random: &mut Random, jobs: &mut [Job], percent: u32) {
    let mut rank: Vec<usize> = (0..jobs.len()).collect();
    random.shuffle(&mut rank);
    for (j, job) in jobs.iter_mut().enumerate() {
        for i in 0..rank.len() {
            if rank[i] < rank[j] && random.percent(percent) {
                job.earlier |= 1 << i;
            }
        }
    }
}

/// A sheet's parts: the labels run together, the jobs, and the trailer's four figures.
#[derive(Clone, Debug)]
pub struct Sheet {
    pub labels: Vec<u8>,
    pub jobs: Vec<Job>,
    pub offset: u32,
    pub count: u16,
    pub modules: u16,
    pub changeover: u16,
}

impl Sheet {
    /// The parts of a sheet of these jobs without a changeover, with a label of one letter for each.
    pub fn of(modules: u16, mut jobs: Vec<Job>) -> Sheet {
        let labels: Vec<u8> = (b'A'..).take(jobs.len()).collect();
        jobs.iter_mut().for_each(|job| job.label_len = 1);
        Sheet { offset: labels.len() as u32, count: jobs.len() as u16, labels, jobs, modules, changeover: 0 }
    }

    pub fn bytes(&self) -> Vec<u8> {
        self.bytes_in(Layout::Today)
    }

    /// The same in this layout, without what it has no place for.
    pub fn bytes_in(&self, layout: Layout) -> Vec<u8> {
        let mut bytes = self.labels.clone();
        self.jobs.iter().for_each(|job| bytes.extend(&record(job)[..layout.record()]));
        bytes.extend(self.offset.to_le_bytes());
        bytes.extend(self.count.to_le_bytes());
        bytes.extend(self.modules.to_le_bytes());
        if layout == Layout::Today {
            bytes.extend(self.changeover.to_le_bytes());
        }
        bytes
    }
}
