//! The grid with its two axes, the departures, and the end line.
use super::frame::{self, Frame};
use super::words::{self, Side, Word};
use crate::planned::{Planned, PlannedJob};
use std::fmt::Write;

/// Steps between two times on the axis, in minutes.
const STEPS: [u32; 15] = [1, 2, 5, 10, 15, 30, 60, 120, 180, 240, 360, 720, 1440, 2880, 4320];
const MOST_TICKS: f64 = 10.0;

pub fn grid(plan: &Planned, frame: &Frame) -> String {
    let mut svg = String::new();
    let (left, right, bottom) = (frame.left, frame.scale_right, frame.bottom());
    for module in 0..=u32::from(plan.modules) {
        let y = frame.y(module.into());
        writeln!(svg, "<line class=\"grid\" x1=\"{left:.1}\" y1=\"{y:.1}\" x2=\"{right:.1}\" y2=\"{y:.1}\"/>").unwrap();
    }
    let every = [1, 2, 4, 8].into_iter().find(|every| f64::from(*every) * frame.row >= 11.5).unwrap_or(16);
    for module in (0..u32::from(plan.modules)).step_by(every as usize) {
        let y = frame.y(f64::from(module) + 0.5) + 3.8;
        svg += &words::anchored("soft", "end", left - 7.0, y, &module.to_string());
    }
    let middle = (frame.top + bottom) / 2.0;
    writeln!(
        svg,
        "<text class=\"soft\" text-anchor=\"middle\" transform=\"translate(34 {middle:.1}) rotate(-90)\">module</text>"
    )
    .unwrap();
    svg + &times(plan, frame)
}

fn times(plan: &Planned, frame: &Frame) -> String {
    let mut svg = String::new();
    let step = STEPS.into_iter().find(|step| frame.minutes / f64::from(*step) <= MOST_TICKS).unwrap_or(STEPS[14]);
    let axis = frame.axis();
    for minute in plan.clock.full_steps(step, frame.minutes as u32) {
        let x = frame::x(plan, minute.into());
        let (top, below) = (frame.top, axis + 4.0);
        writeln!(svg, "<line class=\"grid\" x1=\"{x:.1}\" y1=\"{top:.1}\" x2=\"{x:.1}\" y2=\"{below:.1}\"/>").unwrap();
        svg += &words::anchored("", "middle", x, axis + 16.0, &plan.clock.time(minute));
        svg += &words::anchored("soft small", "middle", x, axis + 29.0, &minute.to_string());
    }
    svg += &words::anchored("soft", "end", frame.left - 24.0, axis + 16.0, if plan.has_start { "time" } else { "h:mm" });
    svg += &words::anchored("soft small", "end", frame.left - 24.0, axis + 29.0, "minute");
    svg
}

/// The words above the bars.
fn departure_words(plan: &Planned) -> Vec<Word> {
    let word = |job: &PlannedJob| {
        let text = format!("{}{}", job.label, if job.is_late() { " late" } else { "" });
        Word { at: frame::departure_x(plan, job.job.departure), text, late: job.is_late() }
    };
    plan.jobs.iter().map(word).collect()
}

/// How much room they need.
pub fn departures_height(plan: &Planned) -> f64 {
    words::fan_height(&departure_words(plan))
}

pub fn departures(plan: &Planned, frame: &Frame) -> String {
    let line = frame.top;
    let words = departure_words(plan);
    let mut svg = words::anchored("soft", "end", frame.left - 12.0, line - 7.0, "departs");
    svg += &words::fan(&words, &vec![line; words.len()], line, Side::Above, frame::WORDS_LEFT, frame::words_right(plan));
    for (job, word) in plan.jobs.iter().zip(&words) {
        svg += &mark(word.at, line, job.is_late());
    }
    if frame.scale_right < frame.right {
        svg += &strip(frame);
    }
    svg
}

/// The strip behind the bars whose departures are not to scale.
fn strip(frame: &Frame) -> String {
    let (left, right, line, axis) = (frame.scale_right, frame.right, frame.top, frame.axis());
    let dashes = "stroke-dasharray=\"3 3\"";
    let line =
        format!("<line class=\"leader\" {dashes} x1=\"{left:.1}\" y1=\"{line:.1}\" x2=\"{right:.1}\" y2=\"{line:.1}\"/>\n");
    line + &words::anchored("", "end", right, axis + 16.0, "later")
        + &words::anchored("soft small", "end", right, axis + 29.0, "in order")
}

/// A triangle on the line; a cross where the job is late.
fn mark(x: f64, line: f64, late: bool) -> String {
    let (up, down) = (line - 9.0, line - 1.0);
    if late {
        let (left, right) = (x - 4.0, x + 4.0);
        return format!(
            "<path class=\"late-mark\" d=\"M{left:.1} {up:.1}L{right:.1} {down:.1}M{right:.1} {up:.1}L{left:.1} {down:.1}\"/>\n"
        );
    }
    format!("<path class=\"mark\" d=\"M{:.1} {up:.1}L{:.1} {up:.1}L{x:.1} {down:.1}Z\"/>\n", x - 4.5, x + 4.5)
}

/// The words of the arrivals, below the bars.
pub fn arrival_words(plan: &Planned) -> Vec<Word> {
    let word = |job: &PlannedJob| Word {
        at: frame::x(plan, job.job.arrival.into()),
        text: format!("{} arrives", job.label),
        late: false,
    };
    plan.on_the_road().map(word).collect()
}

/// A hollow triangle below the bars for each bus that is still on the road at the start.
pub fn arrivals(plan: &Planned, frame: &Frame) -> String {
    plan.on_the_road().map(|job| arrival_mark(frame::x(plan, job.job.arrival.into()), frame.bottom() + 1.0)).collect()
}

/// The mark of an arrival, with its point here.
pub fn arrival_mark(x: f64, y: f64) -> String {
    format!("<path class=\"arrival-mark\" d=\"M{x:.1} {y:.1}l-4.5 8h9Z\"/>\n")
}

pub fn end_line(plan: &Planned, frame: &Frame) -> String {
    let x = frame::x(plan, plan.end.into());
    let (top, below) = (frame.top, frame.end_words() - 11.0);
    let y = frame.end_words();
    let text = format!("end: {}", plan.end_in_words());
    let wide = words::width(&text, 12.0);
    let (anchor, at) = match x {
        x if x + wide / 2.0 > frame.right => ("end", x + 4.0),
        x if x - wide / 2.0 < frame.left => ("start", x - 4.0),
        x => ("middle", x),
    };
    let mut svg = format!("<line class=\"end\" x1=\"{x:.1}\" y1=\"{top:.1}\" x2=\"{x:.1}\" y2=\"{:.1}\"/>\n", frame.axis() + 4.0);
    writeln!(svg, "<line class=\"leader\" x1=\"{x:.1}\" y1=\"{:.1}\" x2=\"{x:.1}\" y2=\"{below:.1}\"/>", frame.axis() + 31.0)
        .unwrap();
    svg + &words::anchored("end-word", anchor, at, y, &text)
}
