//! What is said of late buses: who is late in every plan, what decides among plans that end alike, and when nobody would be late.
use crate::clock::Clock;
use crate::planned::{Planned, Yard};
use depot_host::on_time::OnTime;

/// Lines below a plan; none where nobody is late.
pub fn notes(plan: &Planned) -> Vec<String> {
    let always = plan.late().filter_map(|job| job.always_late.map(|end| (job, end)));
    let mut notes: Vec<String> = always
        .map(|(job, end)| format!("{} is late in every plan: it cannot be full before {}.", job.label, plan.in_short(end)))
        .collect();
    let nobody = if notes.is_empty() { "nobody" } else { "nobody else" };
    if plan.late().any(|job| job.always_late.is_none_or(|end| job.row.end > end)) {
        notes.push(match plan.on_time {
            None if plan.bound().is_some() => "It is not settled whether fewer buses need be late.".into(),
            None if plan.of_list => "No plan ends earlier; of those that end alike the order of the lines decides.".into(),
            None => "No plan ends earlier; of those that end alike the order of the sheet's jobs decides.".into(),
            Some(OnTime::From(at)) => format!(
                "Some bus is late in every plan that ends by then. The first plan in which {nobody} is late ends at {}, {} min later: \
                 --on-time shows it.",
                plan.in_short(at),
                at - plan.end
            ),
            Some(OnTime::NotBefore(at)) if at > plan.end => {
                format!("Some bus is late in every plan that ends before {}. {ALIKE}", plan.in_short(at))
            }
            Some(OnTime::This | OnTime::NotBefore(_)) => format!("No plan ends earlier. {ALIKE}"),
            Some(OnTime::Never) => format!("Some bus is late in every plan, however late it ends. {ALIKE}"),
        });
    }
    notes
}

/// What decides where it is not known that nobody need be late.
const ALIKE: &str = "Of those that end alike the order of departures decides; another order may have fewer late minutes.";

/// Why there is no plan to show in which nobody is late.
pub fn of_none(yard: &Yard, known: OnTime) -> String {
    let time = |minute: u16| match yard.clock {
        Some(clock) => clock.time(minute.into()),
        None => format!("minute {minute}, {}", Clock::FROM_ZERO.time(minute.into())),
    };
    match known {
        OnTime::Never => "some bus is late in every plan, however late it ends".into(),
        OnTime::This | OnTime::From(_) => "the first plan in which nobody is late cannot be shown: it lasts too long".into(),
        OnTime::NotBefore(at) => format!(
            "no plan in which nobody is late was found; none ends before {}, and buses on the road are in the way of knowing more",
            time(at)
        ),
    }
}
