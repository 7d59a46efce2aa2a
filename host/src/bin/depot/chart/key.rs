//! The key at the right, a line for each job, and the legend below.
use super::bars;
use super::frame::{Frame, ARRIVALS, KEY_ROW, LEGEND_LINE, MARGIN};
use super::marks;
use super::tints::classes;
use super::words;
use crate::planned::{lateness_in_words, Planned, PlannedJob};
use std::fmt::Write;

/// Where the label begins, where the modules end, how far the times end from each other, and where the lateness ends behind them.
const LABEL: f64 = 20.0;
const LABEL_ROOM: f64 = 82.0;
const MODULES: f64 = 122.0;
const TIME: f64 = ARRIVALS;
const LATENESS: f64 = 88.0;

/// The heads of the columns behind the label; arrivals have theirs where some bus is still on the road at the start.
fn heads(plan: &Planned) -> Vec<&'static str> {
    let mut heads = vec!["modules", "start", "end", "departs", "late or early"];
    if plan.has_arrivals() {
        heads.insert(1, "arrives");
    }
    heads
}

/// Where each of them ends.
fn ends(plan: &Planned) -> Vec<f64> {
    let times = heads(plan).len() - 2;
    let mut ends: Vec<f64> = (0..=times).map(|place| MODULES + TIME * place as f64).collect();
    ends.push(ends[times] + LATENESS);
    ends
}

pub fn draw(plan: &Planned, frame: &Frame) -> String {
    let mut svg = String::new();
    if !plan.jobs.is_empty() {
        let y = frame.key_top() + 10.0;
        svg += &words::at("soft", frame.key_left + LABEL, y, "job");
        for (head, end) in heads(plan).iter().zip(ends(plan)) {
            svg += &words::anchored("soft", "end", frame.key_left + end, y, head);
        }
    }
    for (number, (job, class)) in plan.jobs.iter().zip(classes(plan)).enumerate() {
        svg += &row(plan, frame, number, job, &class);
    }
    svg + &legend(plan, frame)
}

fn row(plan: &Planned, frame: &Frame, number: usize, planned: &PlannedJob, class: &str) -> String {
    let PlannedJob { label, job, row, .. } = planned;
    let y = frame.key_top() + 10.0 + KEY_ROW * (number as f64 + 1.0);
    let left = frame.key_left;
    let mut svg = swatch(left, y - 9.5, class);
    svg += &words::within("strong", 11.0, left + LABEL, y, label, LABEL_ROOM);
    let time = |minute: u16| plan.clock.time(minute.into());
    let mut cells = vec![job.modules.to_string(), time(row.start), time(row.end), time(job.departure)];
    if plan.has_arrivals() {
        cells.insert(1, time(job.arrival));
    }
    let ends = ends(plan);
    for (cell, end) in cells.iter().zip(&ends) {
        svg += &words::anchored("", "end", left + end, y, cell);
    }
    let class = if planned.is_late() { "late-word" } else { "" };
    let right = left + ends[cells.len()];
    svg += &words::anchored(class, "end", right, y, &lateness_in_words(planned.lateness()));
    let line = y + 6.5;
    writeln!(svg, "<line class=\"grid\" x1=\"{left:.1}\" y1=\"{line:.1}\" x2=\"{right:.1}\" y2=\"{line:.1}\"/>").unwrap();
    svg
}

fn swatch(x: f64, y: f64, class: &str) -> String {
    let mut svg = format!("<rect class=\"bar {class}\" x=\"{x:.1}\" y=\"{y:.1}\" width=\"14\" height=\"12\" rx=\"2\"/>\n");
    if class == "late" {
        writeln!(svg, "<rect class=\"hatched\" x=\"{x:.1}\" y=\"{y:.1}\" width=\"14\" height=\"12\"/>").unwrap();
    }
    svg
}

/// A line of the legend: signs, each with its words.
struct Line {
    svg: String,
    x: f64,
    y: f64,
}

impl Line {
    fn entry(&mut self, sign: &dyn Fn(f64, f64) -> String, wide: f64, text: &str) {
        self.svg += &sign(self.x, self.y);
        self.svg += &words::at("soft", self.x + wide, self.y, text);
        self.x += wide + words::width(text, 11.0) + 12.0;
    }
}

fn legend(plan: &Planned, frame: &Frame) -> String {
    let line = |y: f64| Line { svg: String::new(), x: MARGIN, y };
    let (mut first, mut second) = (line(frame.legend()), line(frame.legend() + LEGEND_LINE));
    first.entry(&|x, y| swatch(x, y - 9.5, "t0"), 19.0, "a job on its modules");
    first.entry(&|x, y| swatch(x, y - 9.5, "late"), 19.0, "late; hatched after its departure");
    let triangle = |x: f64, y: f64| format!("<path class=\"mark\" d=\"M{:.1} {:.1}h9l-4.5 8Z\"/>\n", x, y - 8.0);
    first.entry(&triangle, 14.0, "departure");
    let cross = |x: f64, y: f64| format!("<path class=\"late-mark\" d=\"M{x:.1} {:.1}l8 8m0 -8l-8 8\"/>\n", y - 8.0);
    first.entry(&cross, 14.0, "missed departure");
    let end = |x: f64, y: f64| {
        format!("<line class=\"end\" x1=\"{:.1}\" y1=\"{:.1}\" x2=\"{0:.1}\" y2=\"{:.1}\"/>\n", x + 3.0, y - 10.0, y + 2.0)
    };
    first.entry(&end, 10.0, "plan's end");
    if plan.has_rests() {
        second.entry(&|x, y| bars::rest(x, y - 9.5, 14.0, 12.0), 19.0, "its modules rest");
    }
    if plan.has_arrivals() {
        second.entry(&|x, y| marks::arrival_mark(x + 4.5, y - 8.5), 14.0, "arrival of a bus that is on the road at the start");
        let edge = |x: f64, y: f64| {
            let thick = format!("<rect class=\"mark\" x=\"{x:.1}\" y=\"{:.1}\" width=\"3\" height=\"12\"/>\n", y - 9.5);
            swatch(x, y - 9.5, "t0") + &thick
        };
        second.entry(&edge, 19.0, "starts as it arrives");
    }
    first.svg + &second.svg
}
