//! The plan for programs.
use crate::json;
use crate::planned::{members as jobs_of, Planned, PlannedJob};
use depot_host::on_time::OnTime;

pub fn text(plan: &Planned) -> String {
    let jobs = plan.jobs.iter().enumerate().map(|(number, planned)| job(plan, number, planned));
    let mut members = vec![
        ("end", plan.end.to_string()),
        ("end_time", time(plan, plan.end)),
        ("cabinet", plan.modules.to_string()),
        ("order", json::numbers(&plan.order)),
        ("jobs", json::list(jobs)),
    ];
    if plan.has_rests() {
        members.insert(3, ("changeover", plan.changeover.to_string()));
    }
    if !plan.has_start {
        members.remove(1);
    }
    let place = members.iter().position(|(name, _)| *name == "cabinet").expect("the cabinet is a member");
    members.splice(place..place, exactness(plan));
    members.splice(0..0, plan.heading.members());
    members.extend(plan.on_time.and_then(first_on_time));
    json::object(&members) + "\n"
}

/// Whether it is the plan that planning gives; where that is not shown, a minute before which no plan ends.
pub fn exactness(plan: &Planned) -> Vec<(&'static str, String)> {
    let bound = plan.bound();
    let time = bound.filter(|_| plan.has_start).map(|minute| ("bound_time", time(plan, minute)));
    let bound_member = bound.map(|minute| ("bound", minute.to_string()));
    [Some(("exact", bound.is_none().to_string())), bound_member, time].into_iter().flatten().collect()
}

/// The end of the first plan in which nobody is late, or a minute before which none of them ends; null where there is none.
fn first_on_time(known: OnTime) -> Option<(&'static str, String)> {
    match known {
        OnTime::This => None,
        OnTime::From(at) => Some(("on_time_end", at.to_string())),
        OnTime::NotBefore(at) => Some(("on_time_not_before", at.to_string())),
        OnTime::Never => Some(("on_time_end", "null".into())),
    }
}

fn time(plan: &Planned, minute: u16) -> String {
    json::text(&plan.clock.time(minute.into()))
}

fn job(plan: &Planned, number: usize, planned: &PlannedJob) -> String {
    let PlannedJob { label, job, row, slack, .. } = planned;
    let mut members = vec![
        ("job", number.to_string()),
        ("label", json::text(label)),
        ("modules", json::numbers(&row.module_numbers())),
        ("after", json::numbers(&jobs_of(job.earlier))),
        ("start", row.start.to_string()),
        ("end", row.end.to_string()),
        ("departure", job.departure.to_string()),
        ("arrival", job.arrival.to_string()),
        ("lateness", planned.lateness().to_string()),
    ];
    if let Some(slack) = slack {
        members.extend([("latest_start", slack.latest_start.to_string()), ("slack", slack.slack.to_string())]);
    }
    if plan.has_rests() {
        members.insert(6, ("hand_back", plan.free_from(planned).to_string()));
    }
    if plan.has_start {
        let times =
            [("start_time", row.start), ("end_time", row.end), ("departure_time", job.departure), ("arrival_time", job.arrival)];
        members.extend(times.map(|(name, minute)| (name, time(plan, minute))));
        if plan.has_rests() {
            members.push(("hand_back_time", time(plan, plan.free_from(planned))));
        }
    }
    json::object(&members)
}
