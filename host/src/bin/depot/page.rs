//! The plan as a page in one file: the picture and the table, for a screen, light or dark, wide or narrow, and for paper.
use crate::chart;
use crate::plan_text::{columns, notes, summary, Column};
use crate::planned::{Planned, PlannedJob, OF_SLACK};
use crate::work_list;
use depot_host::drawing::markup::escaped;

const RULES: &str = include_str!("page.css");

/// Columns whose cells may take several lines.
const WRAPPED: [&str; 3] = ["on", "after", "to do"];
/// Columns of times that took so long, which stay in one line.
const KEPT: [&str; 2] = ["slack", "lateness"];
/// Columns that name what a line is about: on a narrow screen they stand over the others.
const NAMES: [&str; 2] = ["label", "call"];
/// Columns of times, behind the column of their minutes.
const TIMES: [&str; 2] = ["clock", "h:mm"];
/// A table of more columns is shown as cards on a narrow screen.
const NARROW: usize = 5;
/// A work list of more turns stands in two columns on paper.
const ONE_COLUMN: usize = 30;

/// A page's front: its title, and the rules for light and for dark paper.
pub fn head(title: &str, [light, dark]: &[String; 2]) -> String {
    format!(
        "<!DOCTYPE html>\n<html lang=\"en\">\n<head>\n<meta charset=\"utf-8\">\n\
         <meta name=\"viewport\" content=\"width=device-width, initial-scale=1\">\n<meta name=\"color-scheme\" content=\"light dark\">\n\
         <title>{title}</title>\n<style>\n{RULES}{light}@media screen and (prefers-color-scheme:dark){{{dark}}}\n</style>\n</head>\n"
    )
}

/// A picture in a box of its own, in which it is moved where the screen is narrow.
pub fn boxed(picture: &str) -> String {
    format!("<div class=\"picture\" tabindex=\"0\">\n{picture}</div>\n")
}

pub fn text(plan: &Planned) -> String {
    let title = escaped(&format!("{}: charging plan", plan.title()));
    let rules = [chart::LIGHT, chart::DARK].map(|palette| chart::page_rules(plan, &palette));
    let late: Vec<bool> = plan.jobs.iter().map(PlannedJob::is_late).collect();
    format!(
        "{}<body>\n<main>\n{}<section class=\"table\">\n<h2>{title}</h2>\n{}<p>{}</p>\n{}{}</section>\n{}</main>\n</body>\n</html>\n",
        head(&title, &rules),
        boxed(&chart::part(plan)),
        warning(plan),
        escaped(&summary(plan).join(" ")),
        table_of(&columns(plan), &late),
        below(plan),
        by_the_clock(plan)
    )
}

/// What is to be known first of a plan that is not settled.
pub fn warning(plan: &Planned) -> String {
    plan.warning().map_or(String::new(), |words| format!("<p><strong>{}</strong></p>\n", escaped(&words)))
}

/// What is said below the table, on the same sheet of paper.
fn below(plan: &Planned) -> String {
    let order: Vec<&str> = plan.order.iter().map(|job| plan.jobs[usize::from(*job)].label.as_str()).collect();
    let order = if order.is_empty() { String::new() } else { format!("Starting order: {}.", order.join(", ")) };
    let card = "Start, end and modules of every job are those of the proved planner's card.";
    let of_slack = if plan.has_slack() || plan.jobs.is_empty() { format!(" {OF_SLACK}") } else { String::new() };
    let last = format!("{} {card}{of_slack}", plan.none_earlier());
    let paragraphs = [order, notes(plan).join(" "), last].into_iter().filter(|text| !text.is_empty());
    let paragraphs: String = paragraphs.map(|text| format!("<p>{}</p>\n", escaped(&text))).collect();
    format!("<div class=\"below\">\n{paragraphs}</div>\n")
}

/// The night's work, for whoever plugs buses in: on paper a sheet of its own.
fn by_the_clock(plan: &Planned) -> String {
    if plan.jobs.is_empty() {
        return String::new();
    }
    let columns = work_list::columns(plan);
    let turns = columns[0].cells.len() - 1;
    let class = if turns > ONE_COLUMN { "table two" } else { "table" };
    let title = escaped(&format!("By the clock: {}", plan.title()));
    let table = table_of(&columns, &vec![false; turns]);
    format!("<section class=\"{class}\">\n<h2>{title}</h2>\n{}{table}</section>\n", warning(plan))
}

/// The name that a column of times has from that of its minutes in front of it.
fn minutes_before<'a>(heads: &[&'a str], place: usize) -> Option<&'a str> {
    let before = heads[place.checked_sub(1)?];
    (TIMES.contains(&heads[place]) && !TIMES.contains(&before) && before != "minute").then_some(before)
}

/// The class of a column: what it may do, and where it is left out.
fn class_of(heads: &[&str], place: usize, right: bool) -> String {
    let head = heads[place];
    let has_times = heads.iter().any(|head| TIMES.contains(head));
    let is_minute = has_times && head == "minute" || place + 1 < heads.len() && minutes_before(heads, place + 1).is_some();
    let classes = [
        (right, "right"),
        (is_minute, "minute"),
        (head == "job", "number"),
        (NAMES.contains(&head), "name"),
        (WRAPPED.contains(&head), "wrapped"),
    ];
    let classes: Vec<&str> = classes.into_iter().filter(|(is, _)| *is).map(|(_, class)| class).collect();
    if classes.is_empty() {
        return String::new();
    }
    format!(" class=\"{}\"", classes.join(" "))
}

/// Words of hours and minutes, each in one line.
fn in_one(words: &str) -> String {
    words.replace(" h ", "&nbsp;h&nbsp;").replace(" min", "&nbsp;min")
}

/// A table of these columns; the lines that are bad are marked. Where minutes are left out, their times bear their name.
pub fn table_of(columns: &[Column], bad: &[bool]) -> String {
    let heads: Vec<&str> = columns.iter().map(|column| column.cells[0].as_str()).collect();
    let cards = if columns.len() > NARROW { " class=\"cards\"" } else { "" };
    let mut html = format!("<div class=\"scroll\">\n<table{cards}>\n<thead>\n<tr>");
    for (place, head) in heads.iter().enumerate() {
        let shown = match minutes_before(&heads, place) {
            Some(short) => format!("<span class=\"long\">{head}</span><span class=\"short\">{}</span>", escaped(short)),
            None => escaped(head),
        };
        html += &format!("<th{}>{shown}</th>", class_of(&heads, place, columns[place].right));
    }
    html += "</tr>\n</thead>\n<tbody>\n";
    for (line, is_bad) in bad.iter().enumerate() {
        html += if *is_bad { "<tr class=\"late\">" } else { "<tr>" };
        for (place, Column { cells, right }) in columns.iter().enumerate() {
            let name = escaped(minutes_before(&heads, place).unwrap_or(heads[place]));
            let class = class_of(&heads, place, *right);
            let cell = escaped(&cells[line + 1]);
            let cell = if KEPT.contains(&heads[place]) { in_one(&cell) } else { cell };
            html += &format!("<td{class} data-head=\"{name}\">{cell}</td>");
        }
        html += "</tr>\n";
    }
    html + "</tbody>\n</table>\n</div>\n"
}
