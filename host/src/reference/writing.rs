//! Writing a job sheet: checks 2, 3, 19, 5, 6, 7 and 10, one after another.
use super::reading::{outside, some_label_wrong};
use crate::Job;

/// The bytes of the sheet, or the number of the first check that fails; `room` is the lent buffer's length.
pub fn write(jobs: &[Job], labels: &[u8], modules: u16, changeover: u16, room: usize) -> Result<Vec<u8>, u32> {
    if jobs.len() > 20 {
        return Err(2);
    }
    if modules == 0 || modules > 64 {
        return Err(3);
    }
    if changeover > 30 {
        return Err(19);
    }
    let records: Vec<Vec<u8>> = jobs.iter().map(record).collect();
    if records.iter().any(|record| outside(record, jobs.len() as u64)) {
        return Err(5);
    }
    if jobs.iter().map(|job| usize::from(job.label_len)).sum::<usize>() != labels.len() {
        return Err(6);
    }
    if some_label_wrong(labels, jobs.iter().map(|job| usize::from(job.label_len))) {
        return Err(7);
    }
    let cabinet = [little_endian(modules.into(), 2), little_endian(changeover.into(), 2)];
    let trailer = [little_endian(labels.len() as u32, 4), little_endian(jobs.len() as u32, 2), cabinet.concat()];
    let sheet = [labels.to_vec(), records.concat(), trailer.concat()].concat();
    if room < sheet.len() {
        return Err(10);
    }
    Ok(sheet)
}

/// Label length (1 byte), modules (1), minutes (2), earlier jobs (4), departure (2), arrival (2).
fn record(job: &Job) -> Vec<u8> {
    let mut bytes = vec![job.label_len, job.modules];
    bytes.extend(little_endian(job.minutes.into(), 2));
    bytes.extend(little_endian(job.earlier, 4));
    bytes.extend(little_endian(job.departure.into(), 2));
    bytes.extend(little_endian(job.arrival.into(), 2));
    bytes
}

fn little_endian(mut number: u32, bytes: usize) -> Vec<u8> {
    let mut digit = || {
        let low = number % 256;
        number /= 256;
        low as u8
    };
    (0..bytes).map(|_| digit()).collect()
}
