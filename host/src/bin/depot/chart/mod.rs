//! The picture of a plan: a bar a job on its modules, departures, late jobs, the end line, and a key.
mod bars;
mod colours;
mod frame;
mod key;
mod marks;
mod tints;
mod words;

use crate::plan_text;
use crate::planned::Planned;
use depot_host::drawing::markup::escaped;
use frame::Frame;
use std::fmt::Write;

pub use colours::{page_rules, rules as picture_rules};
pub use depot_host::drawing::colours::{DARK, LIGHT};

/// A file of its own.
pub fn file(plan: &Planned) -> String {
    let style = format!("<style>{}</style>\n", colours::rules(plan, &LIGHT));
    picture(plan, &style)
}

/// A part of a page, which has the colours.
pub fn part(plan: &Planned) -> String {
    picture(plan, "")
}

fn picture(plan: &Planned, style: &str) -> String {
    let departures = marks::departures_height(plan);
    let frame = Frame::of(plan, departures, bars::callouts_height(plan, departures));
    let (width, height) = (frame::WIDTH, frame.height());
    let mut svg = format!(
        "<svg xmlns=\"http://www.w3.org/2000/svg\" class=\"chart\" width=\"{width}\" height=\"{height}\" \
         viewBox=\"0 0 {width} {height}\" role=\"img\" aria-label=\"{}\">\n{style}",
        escaped(&format!("{}: {}", title_of(plan), plan_text::summary(plan).join(" ")))
    );
    svg += "<defs><pattern id=\"late\" width=\"6\" height=\"6\" patternUnits=\"userSpaceOnUse\" patternTransform=\"rotate(45)\">\
            <line class=\"hatch\" x1=\"0\" y1=\"0\" x2=\"0\" y2=\"6\"/></pattern></defs>\n";
    writeln!(svg, "<rect class=\"paper\" width=\"{width}\" height=\"{height}\"/>").unwrap();
    svg += &title(plan);
    svg += &marks::grid(plan, &frame);
    svg += &bars::draw(plan, &frame);
    svg += &marks::departures(plan, &frame);
    svg += &marks::arrivals(plan, &frame);
    svg += &marks::end_line(plan, &frame);
    svg += &key::draw(plan, &frame);
    svg + "</svg>\n"
}

/// The plan's title, with a mark where it is not shown to be the earliest.
fn title_of(plan: &Planned) -> String {
    [plan.title()].into_iter().chain(plan.mark()).collect::<Vec<_>>().join(": ")
}

fn title(plan: &Planned) -> String {
    const SIZE: f64 = 13.0;
    let room = frame::WIDTH - 2.0 * frame::MARGIN;
    let mut lines = plan_text::summary(plan);
    if let Some(late) = lines.get_mut(1).filter(|late| words::width(late, SIZE) > 1.1 * room) {
        *late = plan_text::late_in_words(plan, 0);
    }
    let mut svg = words::within("title", 19.0, frame::MARGIN, 34.0, &title_of(plan), room);
    for (place, line) in lines.iter().enumerate() {
        svg += &words::within("lead", SIZE, frame::MARGIN, 54.0 + 17.0 * place as f64, line, room);
    }
    svg
}
