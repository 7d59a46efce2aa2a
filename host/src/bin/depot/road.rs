//! Buses that start only when another one, which is still on the road, has arrived, though there is room for them before: of orders that
//! end alike the tie rule takes the one that comes first by job number, and no job starts before one in front of it. Help, not an answer.
use crate::planned::{Planned, PlannedJob};

/// So many of them are named.
const NAMED: usize = 4;

/// A job that starts with one in front of it, at that one's arrival, and from when on there is room for it.
#[derive(Debug, PartialEq, Eq)]
struct Held {
    job: usize,
    behind: usize,
    room_from: u16,
}

/// What is to be said of them, a line each.
pub fn notes(plan: &Planned) -> Vec<String> {
    let held = held(plan);
    let label = |job: usize| &plan.jobs[job].label;
    let note = |one: &Held| {
        let start = plan.jobs[one.job].row.start;
        format!(
            "{} starts at {}, when {} arrives, though there is room for it from {} on.",
            label(one.job),
            plan.in_short(start),
            label(one.behind),
            plan.in_short(one.room_from)
        )
    };
    let mut notes: Vec<String> = held.iter().take(NAMED).map(note).collect();
    if held.len() > NAMED {
        notes.push(format!("So do {} more.", held.len() - NAMED));
    }
    if let Some(first) = held.first().filter(|_| plan.numbering.is_the_list_s() && plan.bound().is_none()) {
        notes.push(format!(
            "Of orders that end alike the one is taken that comes first by the lines of the list: with the line of {} above that of {} \
             the plan may be another.",
            label(first.job),
            label(first.behind)
        ));
    }
    notes
}

fn held(plan: &Planned) -> Vec<Held> {
    let order: Vec<usize> = plan.order.iter().map(|job| usize::from(*job)).collect();
    let mut held = Vec::new();
    for (place, job) in order.iter().enumerate() {
        let start = plan.jobs[*job].row.start;
        let in_front = order[..place].iter().rev().take_while(|other| plan.jobs[**other].row.start == start);
        let stands_first = |other: usize| plan.numbering.place(other) < plan.numbering.place(*job);
        let arriving = in_front.into_iter().find(|other| stands_first(**other) && plan.jobs[**other].job.arrival == start);
        let room_from = room_from(plan, *job);
        if let Some(behind) = arriving.filter(|_| room_from < start) {
            held.push(Held { job: *job, behind: *behind, room_from });
        }
    }
    held.sort_by_key(|one| one.job);
    held
}

/// The first minute from which on, up to its start, the job has arrived, those that it waits for have ended, and as many modules as it
/// needs are free, and rested, beside all other jobs of the plan. There it could start and no other job would have to move.
fn room_from(plan: &Planned, job: usize) -> u16 {
    let PlannedJob { job: figures, row, .. } = &plan.jobs[job];
    let others = || plan.jobs.iter().enumerate().filter(|(other, _)| *other != job).map(|(_, other)| other);
    let ended = plan.jobs.iter().enumerate().filter(|(i, _)| figures.earlier >> i & 1 == 1).map(|(_, other)| other.row.end).max();
    let first = figures.arrival.max(ended.unwrap_or(0));
    let has_room = |minute: &u16| {
        let keeping = others().filter(|other| other.row.start <= *minute && *minute < plan.free_from(other));
        let held: u16 = keeping.map(|other| u16::from(other.job.modules)).sum();
        held + u16::from(figures.modules) <= plan.modules
    };
    (first..row.start).rev().take_while(has_room).last().unwrap_or(row.start)
}

#[cfg(test)]
mod tests {
    use super::*;
    use crate::clock::Clock;
    use depot_host::order::Order;
    use depot_host::{Job, Row};

    /// Jobs of modules, minutes, arrival, start and a module set.
    fn plan(order: &[u8], jobs: &[(u8, u16, u16, u16, u64)]) -> Planned {
        let job = |(place, (modules, minutes, arrival, start, set)): (usize, &(u8, u16, u16, u16, u64))| PlannedJob {
            label: char::from(b'A' + place as u8).to_string(),
            job: Job { modules: *modules, minutes: *minutes, arrival: *arrival, departure: 30, ..Job::default() },
            row: Row { start: *start, end: start + minutes, modules: *set },
            slack: None,
            always_late: None,
        };
        Planned {
            name: String::new(),
            heading: crate::heading::Heading::default(),
            modules: 2,
            changeover: 0,
            jobs: jobs.iter().enumerate().map(job).collect(),
            order: order.to_vec(),
            end: 35,
            clock: Clock::FROM_ZERO,
            has_start: false,
            numbering: Order::as_listed(jobs.len()),
            on_time: None,
            of_list: true,
            on_time_asked: false,
            taken: None,
        }
    }

    /// E1 with A arriving at 25: C starts with it, though it could run from 20 to 30.
    #[test]
    fn e1_with_a_on_the_road() {
        let plan = plan(&[1, 0, 2], &[(1, 10, 25, 25, 1), (2, 20, 0, 0, 3), (1, 10, 0, 25, 2)]);
        assert_eq!(held(&plan), [Held { job: 2, behind: 0, room_from: 20 }]);
        assert_eq!(notes(&plan)[0], "C starts at minute 25, when A arrives, though there is room for it from minute 20 on.");
    }

    /// The same with modules that rest for 3 minutes, and for 5.
    #[test]
    fn modules_that_rest_leave_less_room() {
        let jobs = [(1, 10, 25, 25, 1), (2, 20, 0, 0, 3), (1, 10, 0, 25, 2)];
        let resting = |changeover| Planned { changeover, ..plan(&[1, 0, 2], &jobs) };
        assert_eq!(held(&resting(3)), [Held { job: 2, behind: 0, room_from: 23 }]);
        assert_eq!(held(&resting(5)), []);
    }

    #[test]
    fn nobody_is_held() {
        let here = plan(&[0, 2, 1], &[(1, 10, 0, 0, 1), (2, 20, 0, 10, 3), (1, 10, 0, 0, 2)]);
        assert_eq!(notes(&here), [""; 0]);
        let arrives_too = plan(&[1, 0, 2], &[(1, 10, 25, 25, 1), (2, 20, 0, 0, 3), (1, 10, 25, 25, 2)]);
        assert_eq!(notes(&arrives_too), [""; 0]);
    }
}
