//! What is planned: a job sheet from a file, and the plan on the card that the library left.
use crate::clock::{how_long, Clock};
use crate::heading::Heading;
use crate::list;
use crate::outcome::{bytes_of, Trouble};
use crate::search::Found;
use crate::taken::Taken;
use depot_host::on_time::{Deadlines, OnTime};
use depot_host::order::Order;
use depot_host::{label_of, Job, JobSlack, Reading, Refusal, Row};

/// A job sheet, and what is known of it beside its bytes.
pub struct Yard {
    pub name: String,
    pub sheet: Vec<u8>,
    /// The start's time of day, where it is known.
    pub clock: Option<Clock>,
    /// The line of each job, where there is a list.
    pub lines: Vec<usize>,
}

impl Yard {
    /// The yard of a list or of a sheet, which their bytes tell; a given start stands in place of the list's.
    pub fn open(file: &str, start: Option<Clock>) -> Result<Yard, Trouble> {
        let bytes = bytes_of(file)?;
        if !list::is_list(file, &bytes) {
            return Ok(Yard { name: file.into(), sheet: bytes, clock: start, lines: Vec::new() });
        }
        let list = list::read(file, &bytes, start)?;
        list.notes.iter().for_each(|note| eprintln!("{note}"));
        let refused = |refusal: Refusal| Trouble::List(format!("{file}: refused {}: {refusal}\n", refusal.number()));
        Ok(Yard { name: file.into(), sheet: list.sheet().map_err(refused)?, clock: list.clock, lines: list.lines })
    }

    pub fn is_list(&self) -> bool {
        !self.lines.is_empty()
    }
}

/// The labels of a sheet, from what reading it answered.
pub fn labels(sheet: &[u8], reading: &Reading) -> Vec<String> {
    let text = |job| label_of(sheet, reading, job).expect("a sheet that reads has every label");
    (0..reading.jobs.len()).map(|job| String::from_utf8_lossy(text(job)).into_owned()).collect()
}

/// A job with its place in the plan.
pub struct PlannedJob {
    pub label: String,
    pub job: Job,
    pub row: Row,
    /// Where it was asked for.
    pub slack: Option<JobSlack>,
    /// The end that no plan of it can be earlier than, where that is after its departure.
    pub always_late: Option<u16>,
}

impl PlannedJob {
    pub fn lateness(&self) -> i32 {
        self.row.lateness(self.job.departure)
    }

    pub fn is_late(&self) -> bool {
        self.lateness() > 0
    }

    /// Whether its bus is still on the road at the plan's start.
    pub fn is_on_the_road(&self) -> bool {
        self.job.arrival > 0
    }
}

/// A plan: what the sheet says of each job, and what the card says of it.
pub struct Planned {
    pub name: String,
    pub heading: Heading,
    pub modules: u16,
    /// The minutes that a module rests between two jobs.
    pub changeover: u16,
    pub jobs: Vec<PlannedJob>,
    pub order: Vec<u8>,
    pub end: u16,
    pub clock: Clock,
    /// Whether the clock's start was given; without it the clock shows hours and minutes since the start.
    pub has_start: bool,
    /// How the jobs stand on the sheet that was planned.
    pub numbering: Order,
    /// What is known of plans in which nobody is late.
    pub on_time: Option<OnTime>,
    pub of_list: bool,
    /// Whether nobody was to be late, even if the plan ends later.
    pub on_time_asked: bool,
    /// What was not settled, where it was taken before the search was over.
    pub taken: Option<Taken>,
}

impl Planned {
    pub fn new(yard: &Yard, found: Found, heading: &Heading) -> Planned {
        let Found { reading, card, slacks, order: numbering, on_time, on_time_asked, taken, .. } = found;
        let always_late = Deadlines::of(&yard.sheet, &reading).always_late();
        let labels = labels(&yard.sheet, &reading);
        let mut slacks = slacks.into_iter().flatten();
        let parts = labels.into_iter().zip(reading.jobs).zip(card.rows).zip(always_late);
        let job = |(((label, job), row), always_late)| PlannedJob { label, job, row, slack: slacks.next(), always_late };
        Planned {
            name: yard.name.rsplit('/').next().unwrap_or(&yard.name).into(),
            heading: heading.clone(),
            modules: reading.modules,
            changeover: reading.changeover,
            jobs: parts.map(job).collect(),
            order: card.order,
            end: card.end,
            clock: yard.clock.unwrap_or(Clock::FROM_ZERO),
            has_start: yard.clock.is_some(),
            numbering,
            on_time,
            of_list: yard.is_list(),
            on_time_asked,
            taken,
        }
    }

    pub fn late(&self) -> impl Iterator<Item = &PlannedJob> {
        self.jobs.iter().filter(|job| job.is_late())
    }

    pub fn on_the_road(&self) -> impl Iterator<Item = &PlannedJob> {
        self.jobs.iter().filter(|job| job.is_on_the_road())
    }

    /// Whether some bus is still on the road at the plan's start.
    pub fn has_arrivals(&self) -> bool {
        self.on_the_road().next().is_some()
    }

    /// Whether the slack of its jobs is known.
    pub fn has_slack(&self) -> bool {
        self.jobs.iter().any(|job| job.slack.is_some())
    }

    /// Whether modules rest between two jobs.
    pub fn has_rests(&self) -> bool {
        self.changeover > 0
    }

    /// The minute from which on the job's modules serve others: then they have rested and are handed back.
    pub fn free_from(&self, job: &PlannedJob) -> u16 {
        job.row.end + self.changeover
    }

    /// The jobs that a job waits for, as the list's column `after` names them.
    pub fn after(&self, job: &PlannedJob) -> String {
        let labels: Vec<String> = self.jobs.iter().map(|job| job.label.clone()).collect();
        list::after_cell(&members(job.job.earlier), &labels)
    }

    /// What `+1` behind a time means, where some time of the plan has it.
    pub fn days_in_words(&self) -> Option<String> {
        self.days_up_to(self.jobs.iter().map(|job| self.free_from(job).max(job.job.departure)).max()?)
    }

    /// What `+1` behind a time means, where some time up to this minute has it.
    pub fn days_up_to(&self, minute: u16) -> Option<String> {
        let days = self.clock.days(minute.into());
        (days > 0).then(|| self.heading.marks(days))
    }

    /// The depot and the dates of the plan, where they are given.
    pub fn over(&self) -> Option<String> {
        self.heading.words(self.clock.days(self.end.into()))
    }

    /// What stands over a picture or a page: depot, dates and the list's name.
    pub fn title(&self) -> String {
        self.over().into_iter().chain([self.name.clone()]).collect::<Vec<_>>().join(", ")
    }

    /// How many of what, in words.
    pub fn size(&self) -> String {
        counted(self.jobs.len(), self.modules, self.changeover)
    }

    /// That no plan ends earlier; where one that is late might, of which plans none does.
    pub fn none_earlier(&self) -> String {
        if let Some(bound) = self.bound().filter(|bound| *bound < self.end) {
            return format!("The plan is valid. No valid plan of this sheet ends before {}.", self.in_short(bound));
        }
        if self.on_time_asked {
            return "No valid plan in which nobody is late ends earlier.".into();
        }
        "No valid plan of this sheet ends earlier.".into()
    }

    /// The plan's end, in words.
    pub fn end_in_words(&self) -> String {
        self.in_words(self.end)
    }

    /// A minute, in words.
    pub fn in_words(&self, minute: u16) -> String {
        let time = self.clock.time(minute.into());
        if self.has_start {
            return format!("minute {minute}, {time}");
        }
        format!("minute {minute}, {time} after the start")
    }

    /// A minute in short: the time of day, or the minute where there is none.
    pub fn in_short(&self, minute: u16) -> String {
        if self.has_start {
            return self.clock.time(minute.into());
        }
        format!("minute {minute}")
    }
}

/// The jobs of a set.
pub fn members(set: u32) -> Vec<usize> {
    (0..32).filter(|job| set >> job & 1 == 1).collect()
}

/// How many jobs, on how many modules, and the changeover where there is one.
pub fn counted(jobs: usize, modules: u16, changeover: u16) -> String {
    let plural = |count: usize, one: &str| format!("{count} {one}{}", if count == 1 { "" } else { "s" });
    let rests =
        if changeover > 0 { format!(" with a changeover of {}", plural(changeover.into(), "minute")) } else { String::new() };
    format!("{} on {}{rests}", plural(jobs, "job"), plural(modules.into(), "module"))
}

/// A lateness in words.
pub fn lateness_in_words(lateness: i32) -> String {
    match lateness {
        0 => "on time".into(),
        minutes if minutes > 0 => format!("{} late", how_long(minutes.unsigned_abs())),
        minutes => format!("{} early", how_long(minutes.unsigned_abs())),
    }
}

/// What is said below every slack.
pub const OF_SLACK: &str = "Slack is by departures and waits alone, as if there were modules enough.";

/// A slack in words.
pub fn slack_in_words(slack: i32) -> String {
    match slack {
        0 => "cannot wait".into(),
        minutes if minutes > 0 => format!("may wait {}", how_long(minutes.unsigned_abs())),
        minutes => format!("{} too late", how_long(minutes.unsigned_abs())),
    }
}

/// Modules as ranges: `0-3 8`.
pub fn ranges(numbers: &[u32]) -> String {
    let words: Vec<String> = runs(numbers)
        .into_iter()
        .map(|(first, last)| if first == last { first.to_string() } else { format!("{first}-{last}") })
        .collect();
    words.join(" ")
}

/// The first and the last number of each run without a gap.
pub fn runs(numbers: &[u32]) -> Vec<(u32, u32)> {
    let mut runs: Vec<(u32, u32)> = Vec::new();
    for number in numbers {
        match runs.last_mut() {
            Some((_, last)) if *last + 1 == *number => *last = *number,
            _ => runs.push((*number, *number)),
        }
    }
    runs
}

#[test]
fn words_of_figures() {
    assert_eq!([-200, 0, 5].map(lateness_in_words), ["3 h 20 early", "on time", "5 min late"]);
    assert_eq!([72, 0, -3].map(slack_in_words), ["may wait 1 h 12", "cannot wait", "3 min too late"]);
    assert_eq!(ranges(&[0, 1, 2, 5, 7, 8]), "0-2 5 7-8");
    assert_eq!(ranges(&[]), "");
}
