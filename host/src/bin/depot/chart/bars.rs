//! The bars: a job's modules from its start to its end, the part behind a missed departure hatched, one label each. The edge at which a
//! job starts is thick where that is its arrival. A dotted tail shows how long the modules rest.
use super::frame::{self, Frame};
use super::marks;
use super::tints::classes;
use super::words::{self, Side, Word, BOLD};
use crate::planned::{lateness_in_words, ranges, runs, Planned, PlannedJob};
use depot_host::drawing::markup::escaped;
use std::fmt::Write;

const SIZE: f64 = 11.0;
/// The room that a label leaves at both ends of its bar.
const INSET: f64 = 5.0;
const ONE_LINE: f64 = 12.5;
const TWO_LINES: f64 = 28.0;
const DETAIL: f64 = 10.0;

/// How a bar bears its label.
enum Label {
    One(String),
    Two(String, String),
    Turned(String),
    /// There is no room: the label stands below the bars, with a line to its bar.
    Outside,
}

/// A rectangle of the picture.
struct Area {
    x: f64,
    y: f64,
    wide: f64,
    high: f64,
}

/// The rectangles of a job: one for each run of modules without a gap.
fn areas(plan: &Planned, frame: &Frame, job: &PlannedJob) -> Vec<Area> {
    let (x, end) = (frame::x(plan, job.row.start.into()), frame::x(plan, job.row.end.into()));
    let area = |(first, last): (u32, u32)| {
        let (y, below) = (frame.y(first.into()), frame.y(f64::from(last) + 1.0));
        Area { x, y: y + 0.8, wide: end - x, high: below - y - 1.6 }
    };
    runs(&job.row.module_numbers()).into_iter().map(area).collect()
}

/// The rectangle that bears the label: the highest.
fn bearer(areas: &[Area]) -> &Area {
    areas.iter().rev().max_by(|a, b| a.high.total_cmp(&b.high)).expect("a job has modules")
}

/// The label of the rectangle that bears it, with the first detail that has room.
fn label(plan: &Planned, job: &PlannedJob, area: &Area) -> Label {
    let times = format!("{}–{}", plan.clock.time(job.row.start.into()), plan.clock.time(job.row.end.into()));
    named(job, area, &if job.is_late() { vec![lateness_in_words(job.lateness()), "late".into()] } else { vec![times] })
}

/// A job's name in a rectangle, and a detail behind or below it.
fn named(job: &PlannedJob, area: &Area, details: &[String]) -> Label {
    let name = job.label.clone();
    let fits = |text: &str, size: f64, room: f64| words::width(text, size) + 2.0 * INSET <= room;
    let name_fits = fits(&name, SIZE * BOLD, area.wide);
    if area.high >= TWO_LINES && name_fits {
        if let Some(detail) = details.iter().find(|detail| fits(detail, DETAIL, area.wide)) {
            return Label::Two(name, detail.clone());
        }
    }
    if area.high >= ONE_LINE {
        let lines = details.iter().map(|detail| format!("{name}  {detail}"));
        if let Some(line) = lines.into_iter().find(|line| fits(line, SIZE * BOLD, area.wide)) {
            return Label::One(line);
        }
        if name_fits {
            return Label::One(name);
        }
    }
    if area.wide >= ONE_LINE && fits(&name, SIZE * BOLD, area.high) {
        return Label::Turned(name);
    }
    Label::Outside
}

/// The words that stand below the bars, arrivals and labels that have no room in their bars, and where their leaders begin.
fn below(plan: &Planned, frame: &Frame) -> (Vec<Word>, Vec<f64>) {
    let words = marks::arrival_words(plan);
    let from = vec![frame.bottom(); words.len()];
    let mut all = (words, from);
    for job in &plan.jobs {
        let areas = areas(plan, frame, job);
        let area = bearer(&areas);
        if matches!(label(plan, job, area), Label::Outside) {
            all.0.push(Word { at: area.x + area.wide / 2.0, text: job.label.clone(), late: job.is_late() });
            all.1.push(area.y + area.high / 2.0);
        }
    }
    all
}

/// How much room they need: it makes bars lower, so it is looked for until it is enough.
pub fn callouts_height(plan: &Planned, departures: f64) -> f64 {
    let mut height = 0.0;
    loop {
        let needed = words::fan_height(&below(plan, &Frame::of(plan, departures, height)).0);
        if needed <= height {
            return height;
        }
        height = needed;
    }
}

pub fn draw(plan: &Planned, frame: &Frame) -> String {
    let mut svg = String::new();
    let classes = classes(plan);
    let jobs = || plan.jobs.iter().zip(&classes);
    jobs().for_each(|(job, class)| svg += &bar(plan, frame, job, class));
    jobs().for_each(|(job, class)| svg += &joins(plan, frame, job, class));
    let (words, from) = below(plan, frame);
    svg += &words::fan(&words, &from, frame.bottom(), Side::Below, frame::WORDS_LEFT, frame::words_right(plan));
    jobs().for_each(|(job, class)| {
        let areas = areas(plan, frame, job);
        let bearer = bearer(&areas);
        for area in &areas {
            let label = if std::ptr::eq(area, bearer) { label(plan, job, area) } else { named(job, area, &[]) };
            svg += &written(&label, area, class);
        }
    });
    svg
}

/// The rectangles of a job, hatched from a missed departure on, each with its tail where modules rest.
fn bar(plan: &Planned, frame: &Frame, job: &PlannedJob, class: &str) -> String {
    let mut svg = format!("<g><title>{}</title>\n", escaped(&in_words(plan, job)));
    let rested = frame::x(plan, plan.free_from(job).into());
    for Area { x, y, wide, high } in &areas(plan, frame, job) {
        if plan.has_rests() {
            let end = x + wide;
            svg += &rest(end, *y, rested - end, *high);
        }
        writeln!(
            svg,
            "<rect class=\"bar {class}\" x=\"{x:.1}\" y=\"{y:.1}\" width=\"{wide:.1}\" height=\"{high:.1}\" rx=\"2\"/>"
        )
        .unwrap();
        if job.is_late() {
            let from = frame::x(plan, job.job.departure.max(job.row.start).into());
            let late = x + wide - from;
            writeln!(svg, "<rect class=\"hatched\" x=\"{from:.1}\" y=\"{y:.1}\" width=\"{late:.1}\" height=\"{high:.1}\"/>")
                .unwrap();
        }
        if job.is_on_the_road() && job.job.arrival == job.row.start {
            writeln!(svg, "<rect class=\"mark\" x=\"{x:.1}\" y=\"{y:.1}\" width=\"3\" height=\"{high:.1}\"/>").unwrap();
        }
    }
    svg + "</g>\n"
}

/// How far apart the dots of modules that rest are.
const DOTS: f64 = 4.0;

/// The tail of modules that rest. Its dots are lines: a pattern of them makes a printed page forty times as large.
pub fn rest(x: f64, y: f64, wide: f64, high: f64) -> String {
    let mut svg = format!("<rect class=\"rest\" x=\"{x:.1}\" y=\"{y:.1}\" width=\"{wide:.1}\" height=\"{high:.1}\"/>\n");
    let columns = if high > DOTS { (wide / DOTS) as usize } else { 0 };
    let line = |place: usize| format!("M{:.1} {:.1}v{:.1}", x + DOTS * (place as f64 + 0.5), y + DOTS / 2.0, high - DOTS / 2.0);
    let lines: String = (0..columns).map(line).collect();
    if columns > 0 {
        writeln!(svg, "<path class=\"dots\" d=\"{lines}\"/>").unwrap();
    }
    svg
}

/// Lines between the rectangles of one job.
fn joins(plan: &Planned, frame: &Frame, job: &PlannedJob, class: &str) -> String {
    let mut svg = String::new();
    for pair in areas(plan, frame, job).windows(2) {
        let (x, from, to) = (pair[0].x + 3.0, pair[0].y + pair[0].high, pair[1].y);
        writeln!(svg, "<line class=\"join {class}\" x1=\"{x:.1}\" y1=\"{from:.1}\" x2=\"{x:.1}\" y2=\"{to:.1}\"/>").unwrap();
    }
    svg
}

fn written(label: &Label, area: &Area, ground: &str) -> String {
    let (x, middle) = (area.x + INSET, area.y + area.high / 2.0);
    let line = |class: &str, size: f64, y: f64, text: &str| {
        halo(ground, area, y, words::width(text, size), size) + &words::at(class, x, y, text)
    };
    match label {
        Label::One(text) => line("strong", SIZE * BOLD, middle + 4.0, text),
        Label::Two(name, detail) => {
            line("strong", SIZE * BOLD, middle - 2.5, name) + &line("small", DETAIL, middle + 10.0, detail)
        }
        Label::Turned(text) => {
            let (x, y) = (area.x + area.wide / 2.0 + 4.0, middle);
            format!(
                "<text class=\"strong\" text-anchor=\"middle\" transform=\"translate({x:.1} {y:.1}) rotate(-90)\">{}</text>\n",
                escaped(text)
            )
        }
        Label::Outside => String::new(),
    }
}

/// Plain ground behind a word, within its bar.
fn halo(class: &str, area: &Area, y: f64, wide: f64, size: f64) -> String {
    let (left, top) = (area.x + INSET - 2.0, (y - 0.85 * size).max(area.y + 1.0));
    let high = (y + 0.25 * size).min(area.y + area.high - 1.0) - top;
    format!("<rect class=\"{class} ground\" x=\"{left:.1}\" y=\"{top:.1}\" width=\"{:.1}\" height=\"{high:.1}\"/>\n", wide + 2.0)
}

/// What the bar says, for a pointer that rests on it.
fn in_words(plan: &Planned, job: &PlannedJob) -> String {
    let time = |minute: u16| plan.clock.time(minute.into());
    let (row, departure) = (&job.row, job.job.departure);
    let arrives = if job.is_on_the_road() { format!(", arrives {}", time(job.job.arrival)) } else { String::new() };
    let rests = if plan.has_rests() { format!(", modules rest until {}", time(plan.free_from(job))) } else { String::new() };
    format!(
        "{}: modules {}{arrives}, {} to {}{rests}, departs {}, {}",
        job.label,
        ranges(&row.module_numbers()),
        time(row.start),
        time(row.end),
        time(departure),
        lateness_in_words(job.lateness())
    )
}
