//! The night for programs.
use super::night::{Event, Kind, Night};
use crate::json;
use crate::plan_json::exactness;
use depot_host::units::in_kw;

pub fn text(night: &Night) -> String {
    let Night { feeder, plan, .. } = night;
    let controllers = feeder.names.iter().enumerate().map(|(number, name)| {
        json::object(&[
            ("name", json::text(name)),
            ("assured_kw", in_kw(feeder.opened.assured[number])),
            ("ceiling_kw", in_kw(feeder.opened.ceiling[number])),
            ("follows_the_plan", (number == feeder.own).to_string()),
        ])
    });
    let members = [
        ("limit_kw", in_kw(feeder.opened.limit)),
        ("module_kw", in_kw(feeder.size)),
        ("need_kw", in_kw(u32::from(plan.modules) * feeder.size)),
        ("controllers", json::list(controllers)),
        ("calls", json::list(night.events.iter().map(|event| call(night, event)))),
        ("every_call_of_the_plan_granted", night.is_granted().to_string()),
        ("within_the_limit", night.within.to_string()),
        ("most_held_kw", in_kw(night.most.0)),
    ];
    json::object(&[&plan.heading.members()[..], &members, &exactness(plan)].concat()) + "\n"
}

fn call(night: &Night, event: &Event) -> String {
    let kind = match event.kind {
        Kind::Claim => "claim",
        Kind::Back => "back",
        Kind::Change => "change",
        Kind::Minute => "minute",
    };
    let mut members = vec![("minute", event.minute.to_string())];
    if night.plan.has_start {
        members.push(("time", json::text(&night.plan.clock.time(event.minute))));
    }
    members.push(("call", json::text(kind)));
    members.extend(event.controller.map(|number| ("controller", number.to_string())));
    members.extend(event.job.map(|job| ("job", job.to_string())));
    members.push(match event.kind {
        Kind::Claim | Kind::Back => ("kw", in_kw(event.power)),
        Kind::Change => ("limit_kw", in_kw(event.power)),
        Kind::Minute => ("plan_minute", event.power.to_string()),
    });
    members.extend(event.answer.err().map(|refusal| ("refused", refusal.number().to_string())));
    members.push(("held_kw", json::list(event.held.iter().map(|held| in_kw(*held)))));
    json::object(&members)
}
