//! The picture of a night: what each controller holds over time, one above the other, the plan's controller at the bottom, and the limit.
use super::night::Night;
use super::words::{ending, summary};
use crate::chart::{picture_rules, LIGHT};
use depot_host::drawing::colours::TINTS;
use depot_host::drawing::markup::escaped;
use depot_host::drawing::words::{anchored, at, width, within, BOLD};
use depot_host::units::in_kw;
use std::fmt::Write;

const WIDTH: f64 = 1120.0;
const HEIGHT: f64 = 560.0;
const MARGIN: f64 = 24.0;
const LEFT: f64 = 74.0;
const RIGHT: f64 = WIDTH - MARGIN;
const TOP: f64 = 138.0;
const BOTTOM: f64 = HEIGHT - 74.0;
/// Steps between two times on the axis, in minutes.
const STEPS: [u32; 13] = [1, 2, 5, 10, 15, 30, 60, 120, 180, 240, 360, 720, 1440];
const MOST_TICKS: u32 = 12;
/// How the line of the assured share is drawn.
const SHARE: &str = "class=\"leader\" stroke-dasharray=\"6 4\"";

/// A file of its own.
pub fn file(night: &Night) -> String {
    picture(night, &format!("<style>{}</style>\n", picture_rules(&night.plan, &LIGHT)))
}

/// A part of a page, which has the colours.
pub fn part(night: &Night) -> String {
    picture(night, "")
}

/// Where a minute and a power lie.
struct Frame {
    minutes: f64,
    most: f64,
}

impl Frame {
    fn of(night: &Night) -> Frame {
        let most = night.minutes.iter().map(|desk| desk.limit).max().unwrap_or(1);
        Frame { minutes: night.minutes.len().max(1) as f64, most: f64::from(most) * 1.06 }
    }

    fn x(&self, minute: usize) -> f64 {
        LEFT + (RIGHT - LEFT) * minute as f64 / self.minutes
    }

    fn y(&self, power: u32) -> f64 {
        BOTTOM - (BOTTOM - TOP) * f64::from(power) / self.most
    }

    /// A line that keeps its height through each minute.
    fn steps(&self, heights: &[u32]) -> Vec<(f64, f64)> {
        let mut points: Vec<(f64, f64)> = Vec::new();
        for (minute, power) in heights.iter().enumerate() {
            let y = self.y(*power);
            if points.last().is_none_or(|last| last.1 != y) {
                points.push((self.x(minute), points.last().map_or(y, |last| last.1)));
                points.push((self.x(minute), y));
            }
        }
        let last = points.last().map_or(BOTTOM, |last| last.1);
        points.push((self.x(heights.len()), last));
        points
    }
}

fn path(points: &[(f64, f64)]) -> String {
    let mut d = String::new();
    for (place, (x, y)) in points.iter().enumerate() {
        write!(d, "{}{x:.1} {y:.1}", if place == 0 { "M" } else { "L" }).unwrap();
    }
    d
}

/// The controllers from the bottom up: the plan's own first.
fn order(night: &Night) -> Vec<usize> {
    let own = night.feeder.own;
    [own].into_iter().chain((0..night.feeder.names.len()).filter(|number| *number != own)).collect()
}

fn picture(night: &Night, style: &str) -> String {
    let frame = Frame::of(night);
    let words = [summary(night), ending(night)].concat().join(" ");
    let mut svg = format!(
        "<svg xmlns=\"http://www.w3.org/2000/svg\" class=\"chart\" width=\"{WIDTH}\" height=\"{HEIGHT}\" \
         viewBox=\"0 0 {WIDTH} {HEIGHT}\" role=\"img\" aria-label=\"{}\">\n{style}<rect class=\"paper\" width=\"{WIDTH}\" height=\"{HEIGHT}\"/>\n",
        escaped(&format!("{}. {words}", title_of(night)))
    );
    svg += &title(night);
    svg += &areas(night, &frame);
    svg += &axes(night, &frame);
    let limits: Vec<u32> = night.minutes.iter().map(|desk| desk.limit).collect();
    writeln!(svg, "<path class=\"end\" fill=\"none\" d=\"{}\"/>", path(&frame.steps(&limits))).unwrap();
    let shares: Vec<u32> = night.minutes.iter().map(|desk| desk.assured[night.feeder.own]).collect();
    writeln!(svg, "<path {SHARE} d=\"{}\"/>", path(&frame.steps(&shares))).unwrap();
    svg += &new_limits(&limits, &frame);
    svg += &legend(night);
    svg + "</svg>\n"
}

/// Whose night it is, with a mark where the plan is not shown to be the earliest.
fn title_of(night: &Night) -> String {
    let mark = night.plan.mark().map_or(String::new(), |mark| format!("; plan {mark}"));
    format!("{}: the night on the feeder{mark}", night.plan.title())
}

fn title(night: &Night) -> String {
    let room = WIDTH - 2.0 * MARGIN;
    let mut svg = within("title", 19.0, MARGIN, 34.0, &title_of(night), room);
    for (place, line) in [summary(night), ending(night)].concat().iter().enumerate() {
        svg += &within("lead", 13.0, MARGIN, 56.0 + 17.0 * place as f64, line, room);
    }
    svg
}

/// The figure of each new limit, above its line.
fn new_limits(limits: &[u32], frame: &Frame) -> String {
    let mut svg = String::new();
    let mut free = LEFT;
    for (minute, pair) in limits.windows(2).enumerate().filter(|(_, pair)| pair[0] != pair[1]) {
        let (word, x) = (in_kw(pair[1]), frame.x(minute + 1) + 4.0);
        let right = x + width(&word, 11.0 * BOLD) + 6.0;
        if x >= free && right <= RIGHT {
            svg += &at("strong", x, frame.y(pair[1]) - 5.0, &word);
            free = right;
        }
    }
    svg
}

/// What each controller holds, on top of those below it.
fn areas(night: &Night, frame: &Frame) -> String {
    let mut svg = String::new();
    let mut below = vec![0; night.minutes.len()];
    for (place, number) in order(night).into_iter().enumerate() {
        let above: Vec<u32> = night.minutes.iter().zip(&below).map(|(desk, low)| low + desk.held[number]).collect();
        let mut outline = frame.steps(&above);
        outline.extend(frame.steps(&below).into_iter().rev());
        let name = escaped(&night.feeder.names[number]);
        writeln!(svg, "<path class=\"bar t{}\" d=\"{}Z\"><title>{name}</title></path>", place % TINTS, path(&outline)).unwrap();
        below = above;
    }
    svg
}

fn axes(night: &Night, frame: &Frame) -> String {
    let mut svg = String::new();
    let minutes = night.minutes.len() as u32;
    let step = STEPS.into_iter().find(|step| minutes / step <= MOST_TICKS).unwrap_or(2880);
    for minute in night.plan.clock.full_steps(step, minutes) {
        let x = frame.x(minute as usize);
        writeln!(svg, "<line class=\"grid\" x1=\"{x:.1}\" y1=\"{TOP:.1}\" x2=\"{x:.1}\" y2=\"{:.1}\"/>", BOTTOM + 4.0).unwrap();
        svg += &anchored("", "middle", x, BOTTOM + 17.0, &night.plan.clock.time(minute));
        svg += &anchored("soft small", "middle", x, BOTTOM + 30.0, &minute.to_string());
    }
    let [limit, share] = [night.feeder.opened.limit, night.feeder.opened.assured[night.feeder.own]];
    for (power, class) in [(0, "soft"), (share, "soft"), (limit, "strong")] {
        svg += &anchored(class, "end", LEFT - 7.0, frame.y(power) + 4.0, &in_kw(power));
    }
    svg + &anchored("soft", "end", LEFT - 7.0, TOP - 6.0, "kW")
}

fn legend(night: &Night) -> String {
    let mut svg = String::new();
    let (mut x, y) = (LEFT, HEIGHT - 18.0);
    for (place, number) in order(night).into_iter().enumerate() {
        let name = &night.feeder.names[number];
        writeln!(
            svg,
            "<rect class=\"bar t{}\" x=\"{x:.1}\" y=\"{:.1}\" width=\"14\" height=\"10\" rx=\"2\"/>",
            place % TINTS,
            y - 9.0
        )
        .unwrap();
        let text = format!("held by {name}");
        svg += &at("", x + 20.0, y, &text);
        x += 44.0 + width(&text, 11.0);
    }
    let line = |class: &str, x: f64| {
        format!("<line {class} x1=\"{x:.1}\" y1=\"{0:.1}\" x2=\"{1:.1}\" y2=\"{0:.1}\"/>\n", y - 4.0, x + 18.0)
    };
    svg += &line("class=\"end\"", x);
    svg += &at("", x + 24.0, y, "limit");
    svg += &line(SHARE, x + 72.0);
    svg + &at("", x + 96.0, y, &format!("assured to {}", night.feeder.names[night.feeder.own]))
}
