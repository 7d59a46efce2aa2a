//! The night's work by the clock: which bus arrives, which is unplugged and which is plugged in, minute by minute.
use crate::plan_text::{lines, over, Column};
use crate::planned::{ranges, Planned, PlannedJob};
use crate::style::Style;

/// What is to be done at a minute.
pub struct Turn<'a> {
    pub minute: u16,
    pub arrive: Vec<&'a PlannedJob>,
    pub unplug: Vec<&'a PlannedJob>,
    pub plug: Vec<&'a PlannedJob>,
}

/// The turns of the night, in their order.
pub fn turns(plan: &Planned) -> Vec<Turn<'_>> {
    let of_job = |job: &PlannedJob| [Some(job.row.start), Some(job.row.end), job.is_on_the_road().then_some(job.job.arrival)];
    let mut minutes: Vec<u16> = plan.jobs.iter().flat_map(of_job).flatten().collect();
    minutes.sort();
    minutes.dedup();
    let turn = |minute: u16| Turn {
        minute,
        arrive: plan.on_the_road().filter(|job| job.job.arrival == minute).collect(),
        unplug: plan.jobs.iter().filter(|job| job.row.end == minute).collect(),
        plug: plan.jobs.iter().filter(|job| job.row.start == minute).collect(),
    };
    minutes.into_iter().map(turn).collect()
}

impl Turn<'_> {
    /// What is to be done, in words.
    fn what(&self) -> String {
        let arrive = self.arrival_in_words();
        let unplug = (!self.unplug.is_empty()).then(|| format!("unplug {}", labels(&self.unplug)));
        let plugged: Vec<String> = self.plug.iter().map(|job| format!("{} on {}", job.label, modules_in_words(job))).collect();
        let plug = (!plugged.is_empty()).then(|| format!("plug {}", plugged.join(", ")));
        [arrive, unplug, plug].into_iter().flatten().collect::<Vec<_>>().join("; ")
    }

    /// Who arrives, in words.
    pub fn arrival_in_words(&self) -> Option<String> {
        let s = if self.arrive.len() == 1 { "s" } else { "" };
        (!self.arrive.is_empty()).then(|| format!("{} arrive{s}", labels(&self.arrive)))
    }
}

fn labels(jobs: &[&PlannedJob]) -> String {
    jobs.iter().map(|job| job.label.as_str()).collect::<Vec<_>>().join(", ")
}

/// The modules of a job.
pub fn modules_in_words(job: &PlannedJob) -> String {
    format!("{} {}", if job.job.modules == 1 { "module" } else { "modules" }, ranges(&job.row.module_numbers()))
}

/// The turns as columns: the time, the minute, and what is to be done.
pub fn columns(plan: &Planned) -> Vec<Column> {
    let turns = turns(plan);
    let column = |head: &str, right: bool, cell: &dyn Fn(&Turn) -> String| Column {
        cells: [head.to_string()].into_iter().chain(turns.iter().map(cell)).collect(),
        right,
    };
    let clock = if plan.has_start { "clock" } else { "h:mm" };
    vec![
        column(clock, false, &|turn| plan.clock.time(turn.minute.into())),
        column("minute", true, &|turn| turn.minute.to_string()),
        column("to do", false, &|turn| turn.what()),
    ]
}

pub fn text(plan: &Planned, style: Style) -> String {
    let mut text = over(plan, style);
    text += &format!("{}: {}. The last is full at {}.\n\n", style.bold(&plan.name), plan.size(), plan.end_in_words());
    for (place, line) in lines(&columns(plan)).iter().enumerate() {
        text += &if place == 0 { style.quiet(line) } else { line.clone() };
        text.push('\n');
    }
    if plan.has_rests() {
        text += &format!("\nModules are free for another bus {} min after the unplugging.\n", plan.changeover);
    }
    if let Some(days) = plan.days_up_to(plan.end) {
        text += &format!("\n{days}\n");
    }
    text
}
