//! `depot sheet` and `depot list`: from a list to a job sheet and back; each takes either.
use crate::arguments::{Arguments, Takes};
use crate::clock::{Clock, START_ALLOWED};
use crate::outcome::{put, say, Outcome, Trouble};
use crate::planned::{labels, Yard};
use crate::{json, list, pointer};
use depot_host::{read, Reading, Refusal};

const SHEET: Takes = Takes { verb: "sheet", flags: &[], values: &["-o", "--start"], plain: &["a list"], needed: 1, more: false };
const LIST: Takes =
    Takes { verb: "list", flags: &["--json"], values: &["-o", "--start"], plain: &["a sheet"], needed: 1, more: false };

pub fn sheet(words: &[String]) -> Result<Outcome, Trouble> {
    let arguments = Arguments::read(&SHEET, words)?;
    let Some(target) = arguments.value("-o") else {
        return Err(Trouble::usage("-o FILE is missing", "sheet"));
    };
    let start = arguments.read_value("--start", Clock::starting, START_ALLOWED)?;
    let yard = Yard::open(arguments.plain(0).expect("a list is needed"), start)?;
    match read(&yard.sheet) {
        Ok(_) => put(target, &yard.sheet).map(|()| Outcome::Answered),
        Err(refusal) => refused(&yard.name, refusal),
    }
}

pub fn list(words: &[String]) -> Result<Outcome, Trouble> {
    let arguments = Arguments::read(&LIST, words)?;
    let start = arguments.read_value("--start", Clock::starting, START_ALLOWED)?;
    let Yard { name, sheet, clock, .. } = Yard::open(arguments.plain(0).expect("a sheet is needed"), start)?;
    let as_json = arguments.has("--json");
    let text = match read(&sheet) {
        Ok(reading) if as_json => in_json(&reading, &labels(&sheet, &reading)),
        Ok(reading) => list::text(&reading, &labels(&sheet, &reading), clock),
        Err(refusal) if as_json => {
            say(&(json::refusal(refusal) + "\n"))?;
            return Ok(Outcome::Refused);
        }
        Err(refusal) => return refused(&name, refusal),
    };
    match arguments.value("-o") {
        Some(target) => put(target, text.as_bytes()).map(|()| Outcome::Answered),
        None => say(&text),
    }
}

fn refused(file: &str, refusal: Refusal) -> Result<Outcome, Trouble> {
    pointer::tell(file, refusal, &[]);
    Ok(Outcome::Refused)
}

fn in_json(reading: &Reading, labels: &[String]) -> String {
    let job = |(job, label): (&depot_host::Job, &String)| {
        let after: Vec<u32> = (0..32).filter(|i| job.earlier >> i & 1 == 1).collect();
        json::object(&[
            ("label", json::text(label)),
            ("modules", job.modules.to_string()),
            ("minutes", job.minutes.to_string()),
            ("after", json::numbers(&after)),
            ("departure", job.departure.to_string()),
            ("arrival", job.arrival.to_string()),
        ])
    };
    let jobs = json::list(reading.jobs.iter().zip(labels).map(job));
    let mut members = vec![("cabinet", reading.modules.to_string())];
    if reading.changeover > 0 {
        members.push(("changeover", reading.changeover.to_string()));
    }
    members.push(("jobs", jobs));
    json::object(&members) + "\n"
}
