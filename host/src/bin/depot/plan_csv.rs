//! The plan for spreadsheets: the list, with columns for when and where each bus is charged. It is a list again: these are passed over.
use crate::list;
use crate::planned::{runs, Planned, PlannedJob};
use depot_host::Reading;

pub fn text(plan: &Planned) -> String {
    let jobs = plan.jobs.iter().map(|job| job.job).collect();
    let reading = Reading { jobs, modules: plan.modules, changeover: plan.changeover };
    let labels: Vec<String> = plan.jobs.iter().map(|job| job.label.clone()).collect();
    let clock = plan.has_start.then_some(plan.clock);
    let moment = |minute: u16| clock.map_or(minute.to_string(), |clock| clock.time(minute.into()));
    let column = |cell: &dyn Fn(&PlannedJob) -> String| plan.jobs.iter().map(cell).collect::<Vec<_>>();
    let mut more = vec![
        ("start", column(&|job| moment(job.row.start))),
        ("end", column(&|job| moment(job.row.end))),
        ("on", column(&|job| on(&job.row.module_numbers()))),
    ];
    if plan.jobs.iter().all(|job| job.slack.is_some()) {
        more.push(("slack", column(&|job| job.slack.map_or(String::new(), |slack| slack.slack.to_string()))));
    }
    more.push(("lateness", column(&|job| job.lateness().to_string())));
    let over: String = plan.over().into_iter().chain(plan.warning()).map(|words| format!("# {words}\n")).collect();
    over + &list::text_with(&reading, &labels, clock, &more)
}

/// Modules as `0..3 8`: a spreadsheet takes `1-8` for a date.
fn on(numbers: &[u32]) -> String {
    let run = |(first, last): (u32, u32)| if first == last { first.to_string() } else { format!("{first}..{last}") };
    runs(numbers).into_iter().map(run).collect::<Vec<_>>().join(" ")
}
