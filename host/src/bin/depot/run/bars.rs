//! The feeder over time in signs: a column for some minutes, one controller's power above the other's.
use super::night::Night;
use depot_host::units::in_kw;
use depot_host::Desk;
use std::fmt::Write;

const WIDEST: usize = 72;
const HIGH: u32 = 12;
/// Steps between two columns, in minutes.
const STEPS: [usize; 10] = [1, 2, 5, 10, 15, 20, 30, 60, 120, 180];
/// So many columns have one time.
const TIME_EVERY: usize = 12;

/// A sign for each other controller.
const SIGNS: [char; 7] = ['o', 'x', '+', '*', '%', '@', '&'];

/// What is held at the end of a minute: the plan's controller first.
fn stack(desk: &Desk, own: usize) -> Vec<u32> {
    let others = (0..desk.count as usize).filter(|i| *i != own);
    [own].into_iter().chain(others).map(|i| desk.held[i]).collect()
}

/// The sign of a controller, by its place in the stack.
fn sign(place: usize) -> char {
    if place == 0 {
        '#'
    } else {
        SIGNS[place - 1]
    }
}

pub fn text(night: &Night) -> String {
    let own = night.feeder.own;
    let step = STEPS.into_iter().find(|step| night.minutes.len().div_ceil(*step) <= WIDEST);
    let step = step.unwrap_or(night.minutes.len().div_ceil(WIDEST));
    // of the minutes of a column the one in which most is held
    let most = |minutes: &[Desk]| *minutes.iter().rev().max_by_key(|desk| desk.held.iter().sum::<u32>()).expect("a minute");
    let columns: Vec<Desk> = night.minutes.chunks(step).map(most).collect();
    let limit = night.minutes.iter().map(|desk| desk.limit).max().unwrap_or(1);
    let label = in_kw(limit).len().max(2);
    let mut text = format!("{:>label$} kW\n", "");
    for row in (0..HIGH).rev() {
        let at = if row == HIGH - 1 { in_kw(limit) } else { String::new() };
        let line: String = columns.iter().map(|desk| cell(desk, own, limit, row)).collect();
        writeln!(text, "{at:>label$} |{}", line.trim_end()).unwrap();
    }
    let mut times = String::new();
    for column in (0..columns.len()).step_by(TIME_EVERY) {
        let time = night.plan.clock.time((column * step) as u32);
        write!(times, "{time:<TIME_EVERY$}").unwrap();
    }
    writeln!(text, "{:>label$} +{}", 0, "-".repeat(columns.len())).unwrap();
    writeln!(text, "{:>label$}  {}", "", times.trim_end()).unwrap();
    let names: Vec<String> =
        (0..night.feeder.names.len()).map(|place| format!("{} {}", sign(place), name(night, place))).collect();
    let minutes = if step == 1 { "a minute".into() } else { format!("{step} minutes") };
    let lower = if night.minutes.iter().any(|desk| desk.limit < limit) { ", - is the limit where it is lower" } else { "" };
    writeln!(text, "{}   a column is {minutes}{lower}", names.join("   ")).unwrap();
    text
}

/// The controller's name, by its place in the stack.
fn name(night: &Night, place: usize) -> &str {
    let own = night.feeder.own;
    let number =
        if place == 0 { own } else { (0..night.feeder.names.len()).filter(|i| *i != own).nth(place - 1).expect("it is there") };
    &night.feeder.names[number]
}

/// The sign of a cell: who holds the power at its middle, or nobody.
fn cell(desk: &Desk, own: usize, limit: u32, row: u32) -> char {
    let middle = u64::from(limit) * (2 * u64::from(row) + 1);
    let twice = |power: u32| 2 * u64::from(HIGH) * u64::from(power);
    let mut below = 0;
    for (place, held) in stack(desk, own).into_iter().enumerate() {
        below += held;
        if middle < twice(below) {
            return sign(place);
        }
    }
    if middle > twice(desk.limit) && middle < twice(desk.limit) + 2 * u64::from(limit) {
        return '-';
    }
    ' '
}
