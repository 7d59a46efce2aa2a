//! `depot slack`: which bus may wait and which holds up a departure, and the waits of a list that others imply.
use crate::clock::Clock;
use crate::heading::DAYS;
use crate::outcome::{say, Outcome, Trouble};
use crate::plan_text::{lines, Column};
use crate::plan_verb::{not_planned, Asked, Form};
use crate::planned::{counted, labels, slack_in_words, Yard, OF_SLACK};
use crate::search::Found;
use crate::style::Style;
use crate::{json, list};
use depot_host::{JobSlack, Reading};
use std::fmt::Write;

pub fn run(words: &[String]) -> Result<Outcome, Trouble> {
    let (asked, yard) =
        Asked::of_a_list("slack", &["--raw", "--json", "--by-line", "--on-time"], &["--start", "--memory"], words)?;
    let found = match asked.plan(&yard, true) {
        Ok(found) => found,
        Err(failed) => return not_planned(&yard, failed, asked.form),
    };
    let waits = Waits::of(&yard, found);
    say(&match asked.form {
        Form::Table => waits.in_words(Style::of_output()),
        Form::Raw => waits.raw(),
        Form::Json => waits.in_json(),
    })
}

/// The buses of a list, and how long each may wait.
struct Waits {
    name: String,
    reading: Reading,
    labels: Vec<String>,
    slacks: Vec<JobSlack>,
    clock: Option<Clock>,
}

impl Waits {
    fn of(yard: &Yard, found: Found) -> Waits {
        let (reading, slacks) = (found.reading, found.slacks.expect("slacks were asked for"));
        let labels = labels(&yard.sheet, &reading);
        let name = yard.name.rsplit('/').next().unwrap_or(&yard.name).into();
        Waits { name, reading, labels, slacks, clock: yard.clock }
    }

    /// The planned start of a job: its latest start less its slack.
    fn start(&self, job: usize) -> i32 {
        self.slacks[job].latest_start - self.slacks[job].slack
    }

    /// The jobs, least slack first.
    fn tightest_first(&self) -> Vec<usize> {
        let mut jobs: Vec<usize> = (0..self.slacks.len()).collect();
        jobs.sort_by_key(|job| (self.slacks[*job].slack, self.start(*job)));
        jobs
    }

    /// The jobs of a set.
    fn members(&self, set: u32) -> Vec<usize> {
        (0..self.labels.len()).filter(|job| set >> job & 1 == 1).collect()
    }

    /// The earlier jobs of a job that stay where the implied marks go.
    fn kept(&self, job: usize) -> Vec<usize> {
        self.members(self.reading.jobs[job].earlier & !self.slacks[job].implied)
    }

    /// Whether a job waits for another, directly or through others.
    fn waits_for(&self, job: usize, earlier: usize) -> bool {
        self.kept(job).into_iter().any(|kept| kept == earlier || self.waits_for(kept, earlier))
    }

    /// A job as the column `after` names it.
    fn named(&self, job: usize) -> String {
        list::after_cell(&[job], &self.labels)
    }

    /// A line for each bus, least slack first, and what is not needed in the list.
    fn in_words(&self, style: Style) -> String {
        let size = counted(self.labels.len(), self.reading.modules, self.reading.changeover);
        if self.labels.is_empty() {
            return format!("{}: {size}: no bus is waiting.\n", style.bold(&self.name));
        }
        let mut text = format!("{}: {size}. {}\n\n", style.bold(&self.name), self.late_in_words());
        let jobs = self.tightest_first();
        for (place, line) in lines(&self.columns(&jobs)).iter().enumerate() {
            let late = place > 0 && self.slacks[jobs[place - 1]].slack < 0;
            let line = match (place, late) {
                (0, _) => style.quiet(line),
                (_, true) => style.bad(line),
                _ => line.clone(),
            };
            writeln!(text, "{line}").unwrap();
        }
        let days = if text.contains("+1") { format!(" {DAYS}") } else { String::new() };
        writeln!(text, "\n{OF_SLACK}{days}").unwrap();
        text + &self.implied_in_words()
    }

    fn late_in_words(&self) -> String {
        match self.slacks.iter().filter(|job| job.slack < 0).count() {
            0 => "No bus holds up a departure.".into(),
            1 => "1 bus starts too late for its departure, or for that of a bus that waits for it.".into(),
            count => format!("{count} buses start too late for their departures, or for those of buses that wait for them."),
        }
    }

    fn columns(&self, jobs: &[usize]) -> Vec<Column> {
        let column = |head: &str, right: bool, cell: &dyn Fn(usize) -> String| {
            let cells = jobs.iter().map(|job| cell(*job));
            Column { cells: [head.to_string()].into_iter().chain(cells).collect(), right }
        };
        let clock = self.clock.unwrap_or(Clock::FROM_ZERO);
        let head = if self.clock.is_some() { "clock" } else { "h:mm" };
        let moment = |name: &str, of: &dyn Fn(usize) -> i32| {
            [column(name, true, &|job| of(job).to_string()), column(head, false, &|job| clock.moment(of(job)))]
        };
        let mut columns =
            vec![column("job", true, &|job| job.to_string()), column("label", false, &|job| self.labels[job].clone())];
        columns.extend(moment("start", &|job| self.start(job)));
        columns.extend(moment("latest", &|job| self.slacks[job].latest_start));
        columns.push(column("slack", true, &|job| slack_in_words(self.slacks[job].slack)));
        columns
    }

    /// The marks that others imply, and the shorter cells.
    fn implied_in_words(&self) -> String {
        let shorter: Vec<usize> = (0..self.slacks.len()).filter(|job| self.slacks[*job].implied != 0).collect();
        if shorter.is_empty() {
            return String::new();
        }
        let mut text = String::from("\nNot needed in the list:\n");
        for job in &shorter {
            for earlier in self.members(self.slacks[*job].implied) {
                let between = self.kept(*job).into_iter().find(|kept| self.waits_for(*kept, earlier));
                let [job, earlier] = [*job, earlier].map(|job| self.named(job));
                let between = self.named(between.expect("another chain leads there"));
                writeln!(text, "  {job} after {earlier}, since {between} waits for it already").unwrap();
            }
        }
        text += "The column 'after', shorter:\n";
        for job in &shorter {
            writeln!(text, "  {}: {}", self.named(*job), list::after_cell(&self.kept(*job), &self.labels)).unwrap();
        }
        text
    }

    /// A line for each job in the list's order.
    fn raw(&self) -> String {
        let line = |(job, one): (usize, &JobSlack)| {
            format!("{} {} {} {:08X} {}\n", self.start(job), one.latest_start, one.slack, one.implied, self.labels[job])
        };
        self.slacks.iter().enumerate().map(line).collect()
    }

    fn in_json(&self) -> String {
        let job = |(job, one): (usize, &JobSlack)| {
            let mut members = vec![
                ("job", job.to_string()),
                ("label", json::text(&self.labels[job])),
                ("start", self.start(job).to_string()),
                ("latest_start", one.latest_start.to_string()),
                ("slack", one.slack.to_string()),
                ("implied", json::numbers(&self.members(one.implied))),
                ("after", json::numbers(&self.kept(job))),
            ];
            if let Some(clock) = self.clock {
                let times = [("start_time", self.start(job)), ("latest_start_time", one.latest_start)];
                members.extend(times.map(|(name, minute)| (name, json::text(&clock.moment(minute)))));
            }
            json::object(&members)
        };
        json::object(&[("jobs", json::list(self.slacks.iter().enumerate().map(job)))]) + "\n"
    }
}
