//! Job sheets as they were before trailers had a changeover, with trailers of 8 bytes, and before records had an arrival, with records of
//! 10 bytes too; and such a sheet in today's layout.
use super::planning::plan_read;
use super::reading::{number, some_label_wrong, Job, Sheet};
use crate::raw_sheet::Layout;

const TRAILER: usize = 8;

/// How many bytes a record of the layout has.
fn record_of(layout: Layout) -> usize {
    match layout {
        Layout::BeforeArrivals => 10,
        Layout::BeforeChangeovers => 12,
        Layout::Today => panic!("today's layout is no older one"),
    }
}

/// The parts of a sheet of which 1 to 4 do not fail.
struct Parts<'a> {
    labels: &'a [u8],
    records: Vec<&'a [u8]>,
    trailer: &'a [u8],
}

/// Labels, records and trailer, or the number of the first of the checks 1 to 4 that fails.
fn parts(bytes: &[u8], layout: Layout) -> Result<Parts<'_>, u32> {
    let record = record_of(layout);
    if bytes.len() < TRAILER || bytes.len() > 20 * (16 + record) + TRAILER {
        return Err(1);
    }
    let (front, trailer) = bytes.split_at(bytes.len() - TRAILER);
    let (offset, n, modules) = (number(&trailer[0..4]), number(&trailer[4..6]), number(&trailer[6..8]));
    if n > 20 {
        return Err(2);
    }
    if modules == 0 || modules > 64 {
        return Err(3);
    }
    if offset + record as u64 * n != front.len() as u64 {
        return Err(4);
    }
    let (labels, records) = front.split_at(offset as usize);
    Ok(Parts { labels, records: records.chunks(record).collect(), trailer })
}

/// The sheet's jobs, with arrival 0 where records have none, and N, or the number of the first check that fails. The changeover is 0.
pub fn read(bytes: &[u8], layout: Layout) -> Result<Sheet, u32> {
    let Parts { labels, records, trailer } = parts(bytes, layout)?;
    let jobs: Vec<Job> = records.iter().map(|record| job(record)).collect();
    let n = jobs.len();
    let is_faulty = |job: &Job| {
        !(1..=16).contains(&job.label_length)
            || !(1..=255).contains(&job.modules)
            || !(1..=1440).contains(&job.minutes)
            || job.departure > 2880
            || job.arrival > 1440
            || job.earlier.iter().any(|earlier| *earlier >= n)
    };
    if jobs.iter().any(is_faulty) {
        return Err(5);
    }
    if jobs.iter().map(|job| job.label_length).sum::<usize>() != labels.len() {
        return Err(6);
    }
    if some_label_wrong(labels, jobs.iter().map(|job| job.label_length)) {
        return Err(7);
    }
    Ok(Sheet { jobs, modules: number(&trailer[6..8]) as usize, changeover: 0 })
}

fn job(record: &[u8]) -> Job {
    let earlier = number(&record[4..8]);
    Job {
        label_length: record[0].into(),
        modules: record[1].into(),
        minutes: number(&record[2..4]) as u32,
        earlier: (0..32).filter(|bit| earlier >> bit & 1 == 1).collect(),
        departure: number(&record[8..10]) as u32,
        arrival: record.get(10..12).map_or(0, number) as u32,
    }
}

/// The card of the sheet's plan, or the number of the first check that fails; `room` is the lent card's length.
pub fn plan(bytes: &[u8], layout: Layout, room: usize) -> Result<Vec<u8>, u32> {
    plan_read(&read(bytes, layout)?, room)
}

/// The sheet in today's layout: two bytes 0 behind the trailer, and behind each record that has no arrival. None where 1 to 4 fail, as no
/// layout is known then.
pub fn relaid(bytes: &[u8], layout: Layout) -> Option<Vec<u8>> {
    let Parts { labels, records, trailer } = parts(bytes, layout).ok()?;
    let mut today = labels.to_vec();
    for record in records {
        today.extend(record);
        today.extend(&[0, 0][..12 - record.len()]);
    }
    today.extend(trailer);
    today.extend([0, 0]);
    Some(today)
}
