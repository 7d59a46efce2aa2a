//! Writing a list of a job sheet's figures.
use super::{after, csv, COLUMNS};
use crate::clock::Clock;
use depot_host::Reading;
use std::fmt::Write;

/// The list of these figures and labels; with a clock, arrivals and departures are times of day. Where all buses are there from the
/// start, there is no column of arrivals, and where modules need no rest no line of the changeover.
pub fn text(reading: &Reading, labels: &[String], clock: Option<Clock>) -> String {
    text_with(reading, labels, clock, &[])
}

/// The same with further columns, each with its name and a cell for each job; reading passes them over.
pub fn text_with(reading: &Reading, labels: &[String], clock: Option<Clock>, more: &[(&str, Vec<String>)]) -> String {
    let mut text = format!("cabinet,{}\n", reading.modules);
    if reading.changeover > 0 {
        writeln!(text, "changeover,{}", reading.changeover).unwrap();
    }
    if let Some(clock) = clock {
        writeln!(text, "start,{}", clock.time(0)).unwrap();
    }
    let arrivals = reading.jobs.iter().any(|job| job.arrival > 0);
    let columns = if arrivals { COLUMNS.len() } else { COLUMNS.len() - 1 };
    let names: Vec<&str> = COLUMNS[..columns].iter().copied().chain(more.iter().map(|(name, _)| *name)).collect();
    writeln!(text, "{}", names.join(",")).unwrap();
    let moment = |minute: u16| clock.map_or(minute.to_string(), |clock| clock.time(minute.into()));
    for (number, (job, label)) in reading.jobs.iter().zip(labels).enumerate() {
        let earlier: Vec<usize> = (0..labels.len()).filter(|i| job.earlier >> i & 1 == 1).collect();
        let after = after::cell(&earlier, labels);
        let fields = [
            csv::written(label),
            job.modules.to_string(),
            job.minutes.to_string(),
            csv::written(&after),
            moment(job.departure),
            moment(job.arrival),
        ];
        let behind = more.iter().map(|(_, cells)| cells[number].clone());
        writeln!(text, "{}", fields[..columns].iter().cloned().chain(behind).collect::<Vec<_>>().join(",")).unwrap();
    }
    text
}
