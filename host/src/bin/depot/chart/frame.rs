//! Where things lie: a page of A4's shape at most, the bars at the left and the key at the right.
use super::words;
use crate::planned::Planned;

pub const WIDTH: f64 = 1120.0;
pub const MARGIN: f64 = 24.0;

const TOP: f64 = 96.0;
const MOST_HEIGHT: f64 = 790.0;
const LEFT: f64 = 74.0;
const KEY: f64 = 378.0;
/// What a column of arrivals adds to the key.
pub const ARRIVALS: f64 = 56.0;
const GAP: f64 = 26.0;
/// Below the bars: the axis with its two lines, the end's words, the legend.
const AXIS: f64 = 34.0;
const END_WORDS: f64 = 22.0;
const LEGEND: f64 = 30.0;
/// A second line of the legend.
pub const LEGEND_LINE: f64 = 17.0;
const TALLEST_ROW: f64 = 40.0;
pub const KEY_ROW: f64 = 22.0;

/// Departures behind the bars are to scale as long as they take no more than this part of the width; else they stand in their order, so
/// far apart where there is room, in a strip of their own.
const MOST_BEHIND: f64 = 0.25;
const STEP: f64 = 10.0;
const MOST_STEPS: f64 = 90.0;
const LEAST_STRIP: f64 = 60.0;

pub struct Frame {
    pub left: f64,
    pub right: f64,
    pub top: f64,
    pub row: f64,
    pub modules: f64,
    /// The last minute that is to scale, and where it lies.
    pub minutes: f64,
    pub scale_right: f64,
    pub callouts: f64,
    pub key_left: f64,
    legend_lines: f64,
    jobs: usize,
}

/// The left end of the key, which is wider where it has arrivals.
fn key_left(plan: &Planned) -> f64 {
    WIDTH - MARGIN - KEY - if plan.has_arrivals() { ARRIVALS } else { 0.0 }
}

/// The right end of the bars.
fn right(plan: &Planned) -> f64 {
    key_left(plan) - GAP
}

/// What words beside their places may reach.
pub const WORDS_LEFT: f64 = LEFT - 4.0;

pub fn words_right(plan: &Planned) -> f64 {
    key_left(plan) - 6.0
}

/// The minute from which on all modules have rested.
fn bars_end(plan: &Planned) -> u16 {
    (plan.end + plan.changeover).max(1)
}

/// The jobs that depart behind the bars, by their departures.
fn later(plan: &Planned) -> Vec<u16> {
    let mut later: Vec<u16> =
        plan.jobs.iter().map(|job| job.job.departure).filter(|departure| *departure > bars_end(plan)).collect();
    later.sort();
    later
}

/// The last minute that is to scale, and where it lies: there is room behind every end and departure for the job's words, or departures
/// behind the bars have a strip of their own.
fn scale(plan: &Planned) -> (f64, f64) {
    let (bars, right) = (f64::from(bars_end(plan)), right(plan));
    let mut last = bars;
    for job in &plan.jobs {
        let room = words_right(plan) - LEFT - words::reach(&format!("{} late", job.label));
        let minute = f64::from(job.job.departure.max(job.row.end));
        last = last.max(minute).max(minute * (right - LEFT) / room);
    }
    if later(plan).is_empty() || last - bars <= MOST_BEHIND * last {
        return (last, right);
    }
    (bars, right - (STEP + step(plan) * later(plan).len() as f64).max(LEAST_STRIP))
}

/// How far apart later departures are that stand in their order.
fn step(plan: &Planned) -> f64 {
    STEP.min(MOST_STEPS / later(plan).len() as f64)
}

/// Where a minute lies that is to scale.
pub fn x(plan: &Planned, minute: f64) -> f64 {
    let (minutes, right) = scale(plan);
    LEFT + (right - LEFT) * minute / minutes
}

/// Where a departure lies.
pub fn departure_x(plan: &Planned, departure: u16) -> f64 {
    let (minutes, right) = scale(plan);
    if f64::from(departure) <= minutes {
        return x(plan, departure.into());
    }
    let place = later(plan).iter().filter(|other| **other < departure).count();
    right + STEP + step(plan) * place as f64
}

impl Frame {
    /// The frame with so much room for the departures above the bars and for labels below them.
    pub fn of(plan: &Planned, departures: f64, callouts: f64) -> Frame {
        let modules = f64::from(plan.modules);
        let top = TOP + 12.0 + departures;
        let legend_lines = if plan.has_arrivals() || plan.has_rests() { LEGEND_LINE } else { 0.0 };
        let room = MOST_HEIGHT - top - callouts - AXIS - END_WORDS - LEGEND - legend_lines;
        let row = (room / modules).min(TALLEST_ROW);
        let (minutes, scale_right) = scale(plan);
        Frame {
            left: LEFT,
            right: right(plan),
            top,
            row,
            modules,
            minutes,
            scale_right,
            callouts,
            key_left: key_left(plan),
            legend_lines,
            jobs: plan.jobs.len(),
        }
    }

    pub fn y(&self, module: f64) -> f64 {
        self.top + self.row * module
    }

    /// The lower edge of the bars.
    pub fn bottom(&self) -> f64 {
        self.y(self.modules)
    }

    /// The line of the axis: below the bars and the words that have no room in them.
    pub fn axis(&self) -> f64 {
        self.bottom() + self.callouts
    }

    pub fn end_words(&self) -> f64 {
        self.axis() + AXIS + 14.0
    }

    pub fn legend(&self) -> f64 {
        self.axis() + AXIS + END_WORDS + 12.0
    }

    pub fn key_top(&self) -> f64 {
        TOP
    }

    pub fn height(&self) -> f64 {
        let key = self.key_top() + KEY_ROW * (self.jobs as f64 + 1.0) + MARGIN;
        (self.legend() + self.legend_lines + 16.0).max(key).ceil()
    }
}
