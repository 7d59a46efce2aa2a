//! The night in words: every call with its time and its answer, the feeder over time, and how it ended.
use super::bars;
use super::night::{Event, Kind, Night};
use crate::plan_text::{over, Column};
use crate::planned::counted;
use crate::style::Style;
use depot_host::units::in_kw;
use std::fmt::Write;

/// What is said in front of the calls.
pub fn summary(night: &Night) -> Vec<String> {
    let Night { plan, feeder, .. } = night;
    let (own, size) = (feeder.own, in_kw(feeder.size));
    let [limit, share] = [feeder.opened.limit, feeder.opened.assured[own]].map(in_kw);
    let need = in_kw(u32::from(plan.modules) * feeder.size);
    let jobs = counted(plan.jobs.len(), plan.modules, plan.changeover);
    let others: Vec<&str> = feeder.names.iter().enumerate().filter(|(i, _)| *i != own).map(|(_, name)| name.as_str()).collect();
    let do_they = match (night.greedy, others.len()) {
        (true, 1) => "takes all that it is given",
        (true, _) => "take all that they are given",
        (false, 1) => "calls as the script says",
        (false, _) => "call as the script says",
    };
    let beside = match &others[..] {
        [first @ .., last] if !first.is_empty() => format!("{} and {last}", first.join(", ")),
        all => all.join(", "),
    };
    let name = &feeder.names[own];
    vec![
        format!("{jobs}, followed minute by minute. A module has {size} kW, the feeder {limit} kW."),
        format!("The plan needs {need} kW; {name}, which follows it, is assured of {share} kW. Beside it {beside} {do_they}."),
    ]
}

/// How the night ended.
pub fn ending(night: &Night) -> Vec<String> {
    let of_plan = || night.events.iter().filter(|event| event.job.is_some());
    let count = |kind: Kind| of_plan().filter(|event| event.kind == kind && event.answer.is_ok()).count();
    let [claims, backs] = [count(Kind::Claim), count(Kind::Back)].map(|count| count.to_string());
    let limit = in_kw(night.feeder.opened.limit);
    let (most, minute) = (in_kw(night.most.0), night.plan.clock.time(night.most.1));
    let granted = match (night.refused, night.over) {
        (0, Some(_)) => format!("Every call of the plan was granted: {claims} claims and {backs} hand-backs."),
        (refused, Some(_)) => {
            let times = if refused == 1 { "1 minute of the plan was".into() } else { format!("{refused} minutes of the plan were") };
            format!("{times} refused and made again later; then its {claims} claims and {backs} hand-backs were granted.")
        }
        (_, None) => format!(
            "The plan came to a halt: the share that it needs was taken away, or its controller made other calls. {claims} claims and \
             {backs} hand-backs were granted."
        ),
    };
    let changed = night.events.iter().any(|event| event.kind == Kind::Change && event.answer.is_ok());
    let limit = if changed { "The feeder's limit in force".into() } else { format!("The feeder's limit of {limit} kW") };
    let within = if night.within { "was never passed" } else { "WAS PASSED" };
    vec![granted, format!("{limit} {within}; the most that was held at once was {most} kW, first at {minute}.")]
}

/// What was called for, in words.
pub fn call(night: &Night, event: &Event) -> String {
    match (event.kind, event.job) {
        (kind, Some(job)) => night.plan_call(kind, job),
        (Kind::Claim, None) => "claims".into(),
        (Kind::Back, None) => "hands back".into(),
        (Kind::Change, None) => "new figures, limit".into(),
        (Kind::Minute, None) => format!("minute {} of the plan", event.power),
    }
}

/// How much, where it is power.
fn kilowatts(event: &Event) -> String {
    if event.kind == Kind::Minute {
        return String::new();
    }
    in_kw(event.power)
}

/// Who called.
pub fn who(night: &Night, event: &Event) -> String {
    match event.controller {
        Some(number) => night.feeder.names.get(number).cloned().unwrap_or(format!("controller {number}")),
        None => "the desk".into(),
    }
}

/// The columns of the calls; the last ones are what each controller holds then.
pub fn columns(night: &Night) -> Vec<Column> {
    let column = |head: &str, right: bool, cell: &dyn Fn(&Event) -> String| {
        let cells = night.events.iter().map(cell);
        Column { cells: [head.to_string()].into_iter().chain(cells).collect(), right }
    };
    let clock = if night.plan.has_start { "clock" } else { "h:mm" };
    let mut columns = vec![
        column("minute", true, &|event| event.minute.to_string()),
        column(clock, false, &|event| night.plan.clock.time(event.minute)),
        column("controller", false, &|event| who(night, event)),
        column("call", false, &|event| call(night, event)),
        column("kW", true, &kilowatts),
        column("answer", false, &|event| match event.answer {
            Ok(()) => "granted".into(),
            Err(refusal) => format!("refused {}", refusal.number()),
        }),
    ];
    for (number, name) in night.feeder.names.iter().enumerate() {
        columns.push(column(&format!("{name} holds"), true, &|event| in_kw(event.held[number])));
    }
    columns.push(column("all", true, &|event| in_kw(event.held.iter().sum::<u32>())));
    columns
}

/// The whole night as text.
pub fn text(night: &Night, style: Style) -> String {
    let mut text = over(&night.plan, style);
    write!(text, "{}: {}\n\n", style.bold(&night.plan.name), summary(night).join("\n")).unwrap();
    let columns = columns(night);
    for place in 0..=night.events.len() {
        let mut line = String::new();
        for Column { cells, right } in &columns {
            let (cell, width) = (&cells[place], cells.iter().map(|cell| cell.chars().count()).max().unwrap_or(0));
            let padded = if *right { format!("{cell:>width$}") } else { format!("{cell:<width$}") };
            write!(line, "  {padded}").unwrap();
        }
        let line = line.trim_end();
        let event = place.checked_sub(1).map(|place| &night.events[place]);
        let line = match event {
            None => style.quiet(line),
            Some(event) if event.answer.is_err() => style.bad(line),
            Some(_) => line.into(),
        };
        writeln!(text, "{line}").unwrap();
        for why in event.map_or(&[][..], |event| &event.why) {
            writeln!(text, "            {why}").unwrap();
        }
    }
    text + "\n" + &bars::text(night) + "\n" + &ending(night).join("\n") + "\n"
}
