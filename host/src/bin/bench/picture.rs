//! The distribution as a picture: for each group of lists a panel, in it for each working memory the share of the lists that are solved
//! within a time.
use depot_host::drawing::colours::{self, Palette, LIGHT};
use depot_host::drawing::markup::escaped;
use depot_host::drawing::words::{anchored, at, width, within};
use std::fmt::Write;

/// A group's lists: how many, and a line for each working memory.
pub struct Panel {
    pub name: String,
    pub lists: usize,
    pub lines: Vec<Line>,
}

/// The times of the lists that were solved, sorted.
pub struct Line {
    pub name: String,
    pub times: Vec<f64>,
}

const MARGIN: f64 = 24.0;
const TOP: f64 = 92.0;
/// Room for a panel with its axes, and for the curves in it.
const WIDE: f64 = 372.0;
const HIGH: f64 = 292.0;
const CURVES_WIDE: f64 = 300.0;
const CURVES_HIGH: f64 = 200.0;
const LEFT: f64 = 52.0;
const ABOVE: f64 = 34.0;
/// Panels side by side.
const ACROSS: usize = 3;
/// How many colours there are for lines: a panel has at most so many.
pub const TINTS: usize = 5;
const SIZE: f64 = 11.0;
/// Where the time axis begins.
const FIRST: f64 = 1e-5;

pub fn draw(panels: &[Panel], cutoff: f64) -> String {
    let across = panels.len().clamp(2, ACROSS);
    let width = 2.0 * MARGIN + WIDE * across as f64;
    let height = TOP + HIGH * panels.len().div_ceil(across) as f64 + MARGIN;
    let title = "Share of the job lists that are planned within a time";
    let mut svg = format!(
        "<svg xmlns=\"http://www.w3.org/2000/svg\" class=\"chart\" width=\"{width}\" height=\"{height}\" \
         viewBox=\"0 0 {width} {height}\" role=\"img\" aria-label=\"{}\">\n<style>{}</style>\n\
         <rect class=\"paper\" width=\"{width}\" height=\"{height}\"/>\n",
        escaped(title),
        rules(&LIGHT)
    );
    svg += &at("title", MARGIN, 34.0, title);
    let lead = format!("Processor time of the planning call, which is given up after {}.", time(cutoff));
    svg += &at("lead", MARGIN, 54.0, &lead);
    svg += &legend(&panels[0].lines);
    for (place, panel) in panels.iter().enumerate() {
        let (x, y) = (MARGIN + WIDE * (place % across) as f64, TOP + HIGH * (place / across) as f64);
        writeln!(svg, "<g transform=\"translate({x:.1} {y:.1})\">").unwrap();
        svg += &self::panel(panel, cutoff);
        svg += "</g>\n";
    }
    svg + "</svg>\n"
}

/// Lines that lie on each other stay apart: each is narrower than the one before.
fn rules(palette: &Palette) -> String {
    let mut css = colours::rules(palette);
    write!(css, ".chart .axis{{stroke:{};stroke-width:1.2;fill:none}}.chart .curve{{fill:none}}", palette.ink).unwrap();
    for (place, colour) in tints(palette).into_iter().enumerate() {
        let wide = 3.9 - 0.7 * place as f64;
        write!(css, ".chart .c{place}{{stroke:{colour};stroke-width:{wide:.1}}}").unwrap();
    }
    css
}

fn tints(palette: &Palette) -> [&'static str; TINTS] {
    let [blue, green, violet, _] = palette.bars;
    [palette.late.1, blue.1, green.1, violet.1, palette.ink]
}

fn class(place: usize) -> String {
    format!("curve c{place}")
}

fn legend(lines: &[Line]) -> String {
    const SAMPLE: f64 = 34.0;
    let y = TOP - 14.0;
    let mut svg = at("soft", MARGIN, y, "working memory:");
    let mut x = MARGIN + width("working memory:", SIZE) + 14.0;
    for (place, line) in lines.iter().enumerate() {
        let (class, to, middle) = (class(place), x + SAMPLE, y - 4.0);
        writeln!(svg, "<path class=\"{class}\" d=\"M{x:.1} {middle:.1}H{to:.1}\"/>").unwrap();
        svg += &at("", to + 7.0, y, &line.name);
        x = to + 7.0 + width(&line.name, SIZE) + 22.0;
    }
    svg
}

fn panel(panel: &Panel, cutoff: f64) -> String {
    let counts = || panel.lines.iter().map(|line| line.times.len());
    let (least, most) = (counts().min().unwrap_or(0), counts().max().unwrap_or(0));
    let solved = if least == most { most.to_string() } else { format!("{least} to {most}") };
    let solved = format!("{solved} of {} solved", panel.lists);
    let room = CURVES_WIDE - width(&solved, SIZE) - 10.0;
    let mut svg = within("strong", SIZE, LEFT, ABOVE - 12.0, &panel.name, room);
    svg += &anchored("soft", "end", LEFT + CURVES_WIDE, ABOVE - 12.0, &solved);
    svg += &axes(cutoff);
    let (x, middle) = (10.0, y(0.5));
    let turned = format!("transform=\"translate({x} {middle:.1}) rotate(-90)\"");
    writeln!(svg, "<text class=\"soft small\" text-anchor=\"middle\" {turned}>lists solved</text>").unwrap();
    for (place, line) in panel.lines.iter().enumerate() {
        svg += &curve(line, panel.lists, cutoff, &class(place));
    }
    svg
}

/// Where a time lies; times below the first are at the axis.
fn x(seconds: f64, cutoff: f64) -> f64 {
    LEFT + CURVES_WIDE * (seconds.max(FIRST) / FIRST).log10() / (cutoff / FIRST).log10()
}

fn y(share: f64) -> f64 {
    ABOVE + CURVES_HIGH * (1.0 - share)
}

fn axes(cutoff: f64) -> String {
    let mut svg = String::new();
    let (right, bottom) = (LEFT + CURVES_WIDE, y(0.0));
    for percent in [0, 25, 50, 75, 100] {
        let y = y(f64::from(percent) / 100.0);
        writeln!(svg, "<path class=\"grid\" d=\"M{LEFT} {y:.1}H{right:.1}\"/>").unwrap();
        svg += &anchored("small", "end", LEFT - 6.0, y + 3.5, &format!("{percent} %"));
    }
    for power in -5..=cutoff.log10().floor() as i32 {
        let seconds = 10f64.powi(power);
        let x = x(seconds, cutoff);
        writeln!(svg, "<path class=\"grid\" d=\"M{x:.1} {ABOVE}V{:.1}\"/>", bottom + 4.0).unwrap();
        svg += &anchored("small", "middle", x, bottom + 16.0, &time(seconds));
    }
    writeln!(svg, "<path class=\"axis\" d=\"M{LEFT} {ABOVE}V{bottom:.1}H{right:.1}\"/>").unwrap();
    svg + &anchored("soft small", "middle", LEFT + CURVES_WIDE / 2.0, bottom + 31.0, "time of a call, logarithmic")
}

/// Steps: up at each list's time, and level up to the cut-off.
fn curve(line: &Line, lists: usize, cutoff: f64, class: &str) -> String {
    let mut path = format!("M{:.1} {:.1}", x(FIRST, cutoff), y(0.0));
    for (place, seconds) in line.times.iter().enumerate() {
        write!(path, "H{:.1}V{:.1}", x(seconds.min(cutoff), cutoff), y((place + 1) as f64 / lists as f64)).unwrap();
    }
    format!("<path class=\"{class}\" d=\"{path}H{:.1}\"/>\n", x(cutoff, cutoff))
}

/// A time in its own unit.
fn time(seconds: f64) -> String {
    match seconds {
        s if s < 0.9995e-3 => format!("{:.0} µs", s * 1e6),
        s if s < 0.9995 => format!("{:.0} ms", s * 1e3),
        s => format!("{} s", (s * 100.0).round() / 100.0),
    }
}

#[cfg(test)]
mod tests {
    use super::*;

    #[test]
    fn times_in_their_units() {
        assert_eq!(
            [1e-5, 1e-4, 1e-3, 0.25, 1.0, 2.5, 60.0].map(time),
            ["10 µs", "100 µs", "1 ms", "250 ms", "1 s", "2.5 s", "60 s"]
        );
    }

    #[test]
    fn curves_stay_within_their_panel() {
        let line = Line { name: "0".into(), times: vec![1e-7, 0.5, 1.0, 1.2] };
        let path = curve(&line, 4, 1.0, "c");
        assert!(
            path.contains(&format!("M{LEFT:.1} ")) && path.contains(&format!("V{ABOVE:.1}H{:.1}", LEFT + CURVES_WIDE)),
            "{path}"
        );
    }
}
