//! The plan for eyes, and the printing program's lines.
use crate::planned::{lateness_in_words, ranges, slack_in_words, Planned, PlannedJob, OF_SLACK};
use crate::style::Style;
use crate::{lateness, road};
use std::fmt::Write;

/// Exactly the printing program's lines for the sheet that was planned.
pub fn raw(plan: &Planned) -> String {
    let mut text = format!("plan {} {} {}\n", plan.end, plan.jobs.len(), plan.modules);
    for job in plan.numbering.jobs().iter().map(|number| &plan.jobs[*number]) {
        let row = &job.row;
        writeln!(text, "{} {} {} {:016X} {}", row.start, row.end, job.lateness(), row.modules, job.label).unwrap();
    }
    text
}

/// So many late jobs are named in front of the table.
const NAMED: usize = 6;

/// What is said of the plan in front of its table.
pub fn summary(plan: &Planned) -> Vec<String> {
    if plan.jobs.is_empty() {
        return vec![format!("{}: nothing to plan; the plan ends at minute 0.", plan.size())];
    }
    let mut lines = vec![format!("{}. The last is full at {}.", plan.size(), plan.end_in_words()), late_in_words(plan, NAMED)];
    lines.extend(road_in_words(plan));
    lines
}

/// How many buses are still on the road at the plan's start, and when the last of them arrives.
fn road_in_words(plan: &Planned) -> Option<String> {
    let (all, road) = (plan.jobs.len(), plan.on_the_road().count());
    let last = plan.in_words(plan.on_the_road().map(|job| job.job.arrival).max()?);
    Some(match road {
        1 => format!("1 of {all} buses is still on the road at the start; it arrives at {last}."),
        _ => format!("{road} of {all} buses are still on the road at the start; the last arrives at {last}."),
    })
}

/// How many jobs are late, and which; so many of them are named.
pub fn late_in_words(plan: &Planned, named: usize) -> String {
    let late: Vec<_> = plan.late().collect();
    let count = match late.len() {
        0 => return "Every bus is full by its departure.".into(),
        1 => "1 bus is full only after its departure".into(),
        count => format!("{count} buses are full only after their departures"),
    };
    let mut names: Vec<String> =
        late.iter().take(named).map(|job| format!("{} ({})", job.label, lateness_in_words(job.lateness()))).collect();
    if late.len() > named && named > 0 {
        names.push(format!("and {} more", late.len() - named));
    }
    format!("{count}{}{}.", if names.is_empty() { "" } else { ": " }, names.join(", "))
}

/// The cells of a column, of which the first is its head, and whether they stand at the right.
pub struct Column {
    pub cells: Vec<String>,
    pub right: bool,
}

/// The lines of columns side by side, of which the first has the heads.
pub fn lines(columns: &[Column]) -> Vec<String> {
    let rows = columns.first().map_or(0, |column| column.cells.len());
    let line = |place: usize| {
        let mut line = String::new();
        for Column { cells, right } in columns {
            let (cell, width) = (&cells[place], cells.iter().map(|cell| cell.chars().count()).max().unwrap_or(0));
            let padded = if *right { format!("{cell:>width$}") } else { format!("{cell:<width$}") };
            write!(line, "  {padded}").unwrap();
        }
        line.trim_end().to_string()
    };
    (0..rows).map(line).collect()
}

/// The columns of the table; the last is the lateness. Arrivals have theirs where some bus is still on the road at the start, waits where
/// some bus waits for another, and the minutes from which on modules are free again where they rest.
pub fn columns(plan: &Planned) -> Vec<Column> {
    let column = |head: &str, right: bool, cell: &dyn Fn(usize, &PlannedJob) -> String| {
        let cells = plan.jobs.iter().enumerate().map(|(number, job)| cell(number, job));
        Column { cells: [head.to_string()].into_iter().chain(cells).collect(), right }
    };
    let moment = |head: &str, of: &dyn Fn(&PlannedJob) -> u16| {
        let clock = if plan.has_start { "clock" } else { "h:mm" };
        [column(head, true, &|_, job| of(job).to_string()), column(clock, false, &|_, job| plan.clock.time(of(job).into()))]
    };
    let mut columns = vec![
        column("job", true, &|number, _| number.to_string()),
        column("label", false, &|_, job| job.label.clone()),
        column("modules", true, &|_, job| job.job.modules.to_string()),
        column("on", false, &|_, job| ranges(&job.row.module_numbers())),
    ];
    if plan.has_arrivals() {
        columns.extend(moment("arrives", &|job| job.job.arrival));
    }
    columns.extend(moment("start", &|job| job.row.start));
    columns.extend(moment("end", &|job| job.row.end));
    if plan.has_rests() {
        columns.extend(moment("free", &|job| plan.free_from(job)));
    }
    columns.extend(moment("departs", &|job| job.job.departure));
    if plan.jobs.iter().any(|job| job.job.earlier != 0) {
        columns.push(column("after", false, &|_, job| plan.after(job)));
    }
    if plan.has_slack() {
        columns.push(column("slack", true, &|_, job| job.slack.map_or(String::new(), |slack| slack_in_words(slack.slack))));
    }
    columns.push(column("lateness", true, &|_, job| lateness_in_words(job.lateness())));
    columns
}

/// What is said below the table.
pub fn notes(plan: &Planned) -> Vec<String> {
    let days = plan.days_in_words().into_iter().collect();
    [lateness::notes(plan), road::notes(plan), days].concat()
}

/// A line with the depot and the dates, where they are given; and one with what is to be known first of a plan that is not settled.
pub fn over(plan: &Planned, style: Style) -> String {
    let lines = [plan.over().map(|words| style.bold(&words)), plan.warning().map(|words| style.bad(&words))];
    lines.into_iter().flatten().map(|line| line + "\n").collect()
}

/// The plan as a table for people.
pub fn table(plan: &Planned, style: Style) -> String {
    let mut text = over(plan, style);
    writeln!(text, "{}: {}", style.bold(&plan.name), summary(plan).join("\n")).unwrap();
    if plan.jobs.is_empty() {
        return text;
    }
    text.push('\n');
    for (place, line) in lines(&columns(plan)).iter().enumerate() {
        let late = place > 0 && plan.jobs[place - 1].is_late();
        let line = if place == 0 {
            style.quiet(line)
        } else if late {
            style.bad(line)
        } else {
            line.into()
        };
        writeln!(text, "{line}").unwrap();
    }
    let order: Vec<&str> = plan.order.iter().map(|job| plan.jobs[usize::from(*job)].label.as_str()).collect();
    let of_slack = if plan.has_slack() { format!(" {OF_SLACK}") } else { String::new() };
    writeln!(text, "\nStarting order: {}.\n{}{of_slack}", order.join(", "), plan.none_earlier()).unwrap();
    for note in notes(plan) {
        writeln!(text, "{note}").unwrap();
    }
    text
}
