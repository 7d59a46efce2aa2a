//! The plan for a screen on the wall of the yard: who is on charge, who is next, and what is to be done, in type that is read from afar.
//!
//! The page stands at one minute. Without a minute of its own it has a script that moves it on by the browser's clock; where no script runs
//! it stands at the start, and everything that is to be done follows below.
use crate::arguments::Arguments;
use crate::chart::{DARK, LIGHT};
use crate::clock::{whole, DAY};
use crate::outcome::Trouble;
use crate::plan_text::late_in_words;
use crate::planned::{ranges, Planned, PlannedJob, Yard};
use crate::work_list::{turns, Turn};
use depot_host::drawing::colours::Palette;
use depot_host::drawing::markup::escaped;
use depot_host::drawing::words::{width, BOLD};
use std::fmt::Write;

const RULES: &str = include_str!("wall.css");
const SCRIPT: &str = include_str!("wall.js");

/// So many minutes a turn stays on the page from its minute on.
const KEPT: i64 = 5;
/// So many of the buses that are next are named.
const SHOWN: usize = 3;
/// So many late buses are named where they have room, and the room of a sentence, in its letters' size.
const LATE: usize = 4;
const SENTENCE: f64 = 41.0;
/// The room of a bus's label beside a time and beside one with its day, and what the mark of a late bus takes of it, in the letters' size.
const LABEL: f64 = 7.1;
const LABEL_AND_DAY: f64 = 5.7;
const MARK: f64 = 2.1;
/// How many signs a time of day has.
const HOUR: usize = 5;
/// The height that buses on charge have, in lines of the usual size.
const LINES: f64 = 7.0;

/// The minute for which the page is asked.
pub fn now(arguments: &Arguments, yard: &Yard) -> Result<Option<u32>, Trouble> {
    let allowed = match yard.clock {
        Some(_) => "a time of day, as 22:45, or 00:30+1 for one on the day after the start's",
        None => "a minute counted from the start: the list has no start",
    };
    arguments.read_value("--now", |word| yard.clock.map_or_else(|| whole(word), |clock| clock.minute(word)), allowed)
}

/// Where the page stands.
struct Stand<'a> {
    plan: &'a Planned,
    minute: i64,
    /// Whether that is the time now, as far as is known.
    is_now: bool,
    /// Whether the page moves on by itself.
    is_live: bool,
}

pub fn text(plan: &Planned, now: Option<u32>) -> String {
    let end = i64::from(plan.end);
    let minute = now.map_or(0, |minute| if plan.has_start { in_the_night(minute.into(), end) } else { minute.into() });
    // without a date a time of day names one minute only of a plan that takes less than a day
    let is_live = now.is_none() && plan.has_start && (plan.heading.date().is_some() || end < i64::from(DAY));
    let stand = Stand { plan, minute, is_now: now.is_some(), is_live };
    let title = escaped(&format!("{}: what is to be done", plan.title()));
    format!(
        "<!DOCTYPE html>\n<html lang=\"en\">\n<head>\n<meta charset=\"utf-8\">\n\
         <meta name=\"viewport\" content=\"width=device-width, initial-scale=1\">\n<meta name=\"color-scheme\" content=\"light dark\">\n\
         <title>{title}</title>\n<style>\n{RULES}{}@media screen and (prefers-color-scheme:dark){{{}}}\n</style>\n</head>\n<body>\n\
         {}<main>\n<section>\n{}{}</section>\n<section>\n{}</section>\n</main>\n{}</body>\n</html>\n",
        colours(&LIGHT),
        colours(&DARK),
        stand.front(),
        stand.on_charge(),
        stand.next(),
        stand.to_do(),
        stand.script()
    )
}

/// A time of day behind the plan's end is one before its start where that is nearer.
fn in_the_night(minute: i64, end: i64) -> i64 {
    let day = i64::from(DAY);
    if minute < day && minute > end && day - minute < minute - end {
        return minute - day;
    }
    minute
}

fn colours(palette: &Palette) -> String {
    let Palette { paper, ink, soft, bars, late, .. } = palette;
    format!(
        "body{{background:{paper};color:{ink}}}h2,header p,i,small{{color:{soft}}}header .clock{{color:{ink}}}.said.late,.late{{background:{};color:{ink}}}em{{color:{}}}\
         .turns .soon{{border-left-color:{2};background:{3}}}.turns .due{{border-left-color:{ink};background:{3}}}\
         .said.late{{border-color:{1}}}",
        late.0, late.1, bars[0].1, bars[0].0
    )
}

impl Stand<'_> {
    fn hour(&self, minute: u16) -> String {
        if self.plan.end >= DAY as u16 {
            return self.plan.clock.time(minute.into());
        }
        self.plan.clock.hour(minute.into())
    }

    /// Whose plan it is, the time, and what is said of the night.
    fn front(&self) -> String {
        let plan = self.plan;
        let name = plan.heading.depot().unwrap_or(&plan.name);
        let days = plan.clock.days(plan.end.into());
        let file = plan.heading.depot().map(|_| plan.name.clone());
        let about: Vec<String> =
            plan.heading.dates(days).into_iter().chain(file).chain([plan.size()]).chain(plan.mark()).collect();
        let class = if plan.late().next().is_some() { "said late" } else { "said" };
        // a page before the start is one of a time of day: the same as a day later
        let at = plan.clock.hour(u32::try_from(self.minute).unwrap_or((self.minute + i64::from(DAY)) as u32));
        format!(
            "<header>\n<h1>{}</h1>\n<p>{}</p>\n<p class=\"clock\"><small id=\"as-at\">as at</small> <time id=\"clock\">{at}</time></p>\n\
             </header>\n<p class=\"{class}\">{}</p>\n{}{}",
            escaped(name),
            escaped(&about.join(", ")),
            escaped(&self.late()),
            note("before", self.minute < 0, "p", &format!("The plan starts at {}.", self.hour(0))),
            note("over", self.is_over(), "p", &format!("The plan is over: the last bus was full at {}.", self.hour(plan.end)))
        )
    }

    /// Who is late, in one line.
    fn late(&self) -> String {
        let named = (1..=LATE).rev().map(|named| late_in_words(self.plan, named)).find(|words| width(words, BOLD) <= SENTENCE);
        named.unwrap_or_else(|| late_in_words(self.plan, 0))
    }

    fn is_over(&self) -> bool {
        self.minute >= i64::from(self.plan.end) + KEPT
    }

    /// The buses on charge, those that are full first on top.
    fn on_charge(&self) -> String {
        let mut jobs: Vec<&PlannedJob> = self.plan.jobs.iter().collect();
        jobs.sort_by_key(|job| (job.row.end, job.row.start));
        let is_on = |job: &PlannedJob| (i64::from(job.row.start)..job.row.end.into()).contains(&self.minute);
        let most = jobs.iter().map(|job| jobs.iter().filter(|other| meets(other, job.row.start)).count()).max().unwrap_or(0);
        let size = (LINES / most.max(1) as f64).min(1.0);
        let mut html =
            format!("<h2><span>on charge, on modules</span><span>until</span></h2>\n<ul class=\"buses\" style=\"font-size:{size:.2}rem\">\n");
        for job in &jobs {
            let data = format!("data-from=\"{}\" data-to=\"{}\"", job.row.start, job.row.end);
            html += &self.bus(job, &data, is_on(job), job.row.end);
        }
        html + &note("nobody", !jobs.iter().any(|job| is_on(job)), "li", "nobody") + "</ul>\n"
    }

    /// The buses that are next on charge.
    fn next(&self) -> String {
        let mut jobs: Vec<&PlannedJob> = self.plan.jobs.iter().collect();
        jobs.sort_by_key(|job| job.row.start);
        let mut shown = 0;
        let mut html = String::from("<h2><span>next on charge, on modules</span><span>from</span></h2>\n<ul class=\"buses\">\n");
        for job in jobs {
            let is_next = i64::from(job.row.start) > self.minute && shown < SHOWN;
            shown += usize::from(is_next);
            html += &self.bus(job, &format!("data-start=\"{}\"", job.row.start), is_next, job.row.start);
        }
        html + &note("none-waits", shown == 0, "li", "nobody") + "</ul>\n"
    }

    /// A line for a bus: its label, its modules and a time.
    fn bus(&self, job: &PlannedJob, data: &str, is_shown: bool, minute: u16) -> String {
        let hidden = if is_shown { "" } else { " hidden" };
        let class = if job.is_late() { " class=\"late\"" } else { "" };
        let modules = ranges(&job.row.module_numbers());
        let time = self.hour(minute);
        let room = if time.len() > HOUR { LABEL_AND_DAY } else { LABEL };
        format!("<li {data}{class}{hidden}>{}<i>{modules}</i><span>{time}</span></li>\n", label(job, room))
    }

    /// What is to be done by the clock, from here on.
    fn to_do(&self) -> String {
        let class = if self.hour(self.plan.end).len() > HOUR { "turns days" } else { "turns" };
        let mut html = format!("<h2><span>to do, on modules</span></h2>\n<ol class=\"{class}\">\n");
        let mut is_first = true;
        for turn in turns(self.plan) {
            let left = i64::from(turn.minute) - self.minute;
            let class = match left {
                _ if left + KEPT <= 0 => " hidden",
                _ if left <= 0 && self.is_now => " class=\"due\"",
                _ if is_first && (left > 0 || !self.is_now) => {
                    is_first = false;
                    " class=\"soon\""
                }
                _ => "",
            };
            let away = match left {
                _ if !self.is_now || left + KEPT <= 0 => String::new(),
                _ if left <= 0 => "now".into(),
                _ if left < 100 => format!("in {left} min"),
                _ => String::new(),
            };
            let (at, time) = (turn.minute, self.hour(turn.minute));
            let what = what(&turn);
            writeln!(html, "<li data-at=\"{at}\"{class}><time>{time}<small>{away}</small></time><div>{what}</div></li>").unwrap();
        }
        html + "</ol>\n"
    }

    fn script(&self) -> String {
        let Some(start) = self.plan.clock.start().filter(|_| self.is_live) else { return String::new() };
        let day = self.plan.heading.date().map_or("null".into(), |date| (date.days() * 86_400_000).to_string());
        let end = self.plan.end;
        format!(
            "<script>\nvar plan = {{start: {start}, end: {end}, day: {day}, kept: {KEPT}, shown: {SHOWN}}};\n{SCRIPT}</script>\n"
        )
    }
}

/// Whether a job is on charge at a minute.
fn meets(job: &PlannedJob, minute: u16) -> bool {
    (job.row.start..job.row.end).contains(&minute)
}

/// A sentence that is shown at some minutes.
fn note(id: &str, is_shown: bool, tag: &str, text: &str) -> String {
    let hidden = if is_shown { "" } else { " hidden" };
    let class = if tag == "p" { " class=\"said\"" } else { "" };
    format!("<{tag} id=\"{id}\"{class}{hidden}>{}</{tag}>\n", escaped(text))
}

/// A bus's label, in smaller letters where it would not have room, and the mark of a late one.
fn label(job: &PlannedJob, room: f64) -> String {
    let room = if job.is_late() { room - MARK } else { room };
    let wide = width(&job.label, BOLD);
    let smaller = if wide > room { format!(" style=\"font-size:{:.2}em\"", room / wide) } else { String::new() };
    format!("<span><b{smaller}>{}</b>{}</span>", escaped(&job.label), mark(job))
}

fn mark(job: &PlannedJob) -> &'static str {
    if job.is_late() {
        return " <em>late</em>";
    }
    ""
}

/// What is to be done at a turn: a line for arrivals, one for all that are unplugged, and one for each bus that is plugged in. No range of
/// modules is broken.
fn what(turn: &Turn) -> String {
    let name = |job: &&PlannedJob| format!("<b>{}</b>{}", escaped(&job.label), mark(job));
    let mut html = turn.arrival_in_words().map_or(String::new(), |words| format!("<p>{}</p>", escaped(&words)));
    if !turn.unplug.is_empty() {
        html += &format!("<p>unplug {}</p>", turn.unplug.iter().map(name).collect::<Vec<_>>().join(", "));
    }
    for job in &turn.plug {
        let modules = ranges(&job.row.module_numbers()).replace(' ', "</span> <span>");
        html += &format!("<p>plug {} on <span>{modules}</span></p>", name(job));
    }
    html
}

#[test]
fn minutes_around_a_night() {
    // a plan of eight hours from 20:00 on: at noon it is over, and a minute later the next one is nearer
    assert_eq!([0, 480, 960, 961, 1380].map(|minute| in_the_night(minute, 480)), [0, 480, 960, -479, -60]);
    // a minute of a second day stays
    assert_eq!(in_the_night(1500, 480), 1500);
}
