//! A night: the runner's minutes and, before each of them, the calls of the others, all made by the library.
use super::others::{Call, Others};
use super::Why;
use crate::desk::{why_not_booked, why_not_changed};
use crate::planned::Planned;
use depot_host::units::in_kw;
use depot_host::{Desk, Refusal, Runner};

/// The desk of the night.
pub struct Feeder {
    pub names: Vec<String>,
    /// The controller that follows the plan.
    pub own: usize,
    /// The size of a module, in hundreds of watts.
    pub size: u32,
    pub opened: Desk,
}

/// What was called for.
#[derive(Clone, Copy, PartialEq, Eq)]
pub enum Kind {
    Claim,
    Back,
    Change,
    /// A minute of the plan that was refused: none of its calls was made.
    Minute,
}

/// A call with its answer.
pub struct Event {
    pub minute: u32,
    pub kind: Kind,
    /// Who called, unless the figures were changed.
    pub controller: Option<usize>,
    /// The job of the plan, where the runner called.
    pub job: Option<usize>,
    /// How much, the new limit, or which minute of the plan.
    pub power: u32,
    pub answer: Result<(), Refusal>,
    /// The sums behind a refusal.
    pub why: Vec<String>,
    /// The holdings behind it.
    pub held: Vec<u32>,
}

pub struct Night {
    pub plan: Planned,
    pub feeder: Feeder,
    pub greedy: bool,
    pub events: Vec<Event>,
    /// The desk at the end of each minute.
    pub minutes: Vec<Desk>,
    /// Minutes of the runner that were refused.
    pub refused: usize,
    /// The minute of the night at which the last hand-back of the plan was made, if it was.
    pub over: Option<u32>,
    /// The most that was held at once, and when first.
    pub most: (u32, u32),
    /// Whether the holdings were within the limit in force behind every call.
    pub within: bool,
}

impl Night {
    /// Plays the night, or says why the runner does not start.
    pub fn play(sheet: &[u8], card: &[u8], plan: Planned, feeder: Feeder, mut others: Others) -> Result<Night, Why> {
        let Feeder { own, size, opened, .. } = feeder;
        let mut runner = match Runner::start(sheet, card, &opened, own as u32, size) {
            Ok(runner) => runner,
            Err(refusal) => return Err((refusal, why_not_started(&plan, &feeder, refusal))),
        };
        let greedy = matches!(others, Others::Greedy(_));
        let (events, minutes) = (Vec::new(), Vec::new());
        let mut night = Night { plan, feeder, greedy, events, minutes, refused: 0, over: None, most: (0, 0), within: true };
        let mut desk = opened;
        for minute in 0.. {
            for turn in 0.. {
                match others.call(minute, turn, &desk, own, size) {
                    None => break,
                    Some(None) => {}
                    Some(Some(call)) => night.call(minute, call, &mut desk),
                }
            }
            let answer = night.step(minute, &mut runner, &mut desk);
            night.minutes.push(desk);
            let done = others.are_done(minute + 1);
            if done && (night.over.is_some() || answer.is_err()) {
                break;
            }
        }
        Ok(night)
    }

    /// Whether every call of the plan was granted.
    pub fn is_granted(&self) -> bool {
        self.refused == 0 && self.over.is_some()
    }

    fn note(&mut self, event: Event, limit: u32) {
        let all: u32 = event.held.iter().sum();
        if all > self.most.0 {
            self.most = (all, event.minute);
        }
        self.within &= all <= limit;
        self.events.push(event);
    }

    /// A call of the plan, in words.
    pub fn plan_call(&self, kind: Kind, job: usize) -> String {
        let job = &self.plan.jobs[job];
        let modules = job.job.modules;
        let did = if kind == Kind::Claim { "claims" } else { "hands back" };
        format!("{did} {modules} module{} of {}", if modules == 1 { "" } else { "s" }, job.label)
    }

    /// A call of another controller.
    fn call(&mut self, minute: u32, call: Call, desk: &mut Desk) {
        let before = *desk;
        let names = &self.feeder.names;
        let (kind, controller, power, answer, why) = match call {
            Call::Claim { controller, power } => {
                let answer = desk.claim(controller, power);
                (Kind::Claim, Some(controller), power, answer, why_not_booked(&before, names, controller, power, answer))
            }
            Call::Back { controller, power } => {
                let answer = desk.hand_back(controller, power);
                (Kind::Back, Some(controller), power, answer, why_not_booked(&before, names, controller, power, answer))
            }
            Call::Change { limit, places } => {
                let (assured, ceilings): (Vec<u32>, Vec<u32>) = places.iter().map(|place| (place.assured, place.ceiling)).unzip();
                let answer = desk.change(limit, &assured, &ceilings);
                (Kind::Change, None, limit, answer, why_not_changed(&before, limit, &places, answer))
            }
        };
        let controller = controller.map(|number| number as usize);
        let event = Event { minute, kind, controller, job: None, power, answer, why, held: held(desk) };
        self.note(event, desk.limit);
    }

    /// The runner's minute: the calls that fall due on its card, with the library's answer.
    fn step(&mut self, minute: u32, runner: &mut Runner, desk: &mut Desk) -> Result<(), Refusal> {
        let (before, from) = (*desk, runner.minute);
        let answer = runner.step(desk);
        let (own, size) = (self.feeder.own, self.feeder.size);
        let mut holdings = held(&before);
        let due = due(&self.plan, from);
        if answer.is_err() {
            let not_made: Vec<String> = due.iter().map(|(kind, job)| self.plan_call(*kind, *job)).collect();
            let why = vec![format!("not made: {}", not_made.join(", "))];
            let event = Event {
                minute,
                kind: Kind::Minute,
                controller: Some(own),
                job: None,
                power: from,
                answer,
                why,
                held: held(desk),
            };
            self.note(event, desk.limit);
        }
        for (kind, job) in due.into_iter().filter(|_| answer.is_ok()) {
            let power = u32::from(self.plan.jobs[job].job.modules) * size;
            holdings[own] = if kind == Kind::Claim { holdings[own] + power } else { holdings[own] - power };
            let held = holdings.clone();
            let event = Event { minute, kind, controller: Some(own), job: Some(job), power, answer, why: Vec::new(), held };
            self.note(event, desk.limit);
        }
        assert_eq!(holdings, held(desk), "the desk holds what the minute's calls leave");
        match answer {
            Ok(()) if runner.minute == from => self.over = self.over.or(Some(minute)),
            Ok(()) => {}
            Err(_) => self.refused += 1,
        }
        answer
    }
}

fn held(desk: &Desk) -> Vec<u32> {
    desk.held[..desk.count as usize].to_vec()
}

/// The calls of the plan that fall due in a minute: hand-backs, then claims, each in the order of the sheet's jobs.
fn due(plan: &Planned, minute: u32) -> Vec<(Kind, usize)> {
    let jobs = || plan.numbering.jobs().iter().map(|number| (*number, &plan.jobs[*number]));
    let backs = jobs().filter(|(_, job)| u32::from(plan.free_from(job)) == minute).map(|(number, _)| (Kind::Back, number));
    let claims = jobs().filter(|(_, job)| u32::from(job.row.start) == minute).map(|(number, _)| (Kind::Claim, number));
    backs.chain(claims).collect()
}

/// The sums behind a refused start.
fn why_not_started(plan: &Planned, feeder: &Feeder, refusal: Refusal) -> Vec<String> {
    let Feeder { names, own, size, opened } = feeder;
    match refusal {
        Refusal::NotReady => {
            let need = u64::from(plan.modules) * u64::from(*size);
            let share = in_kw(opened.assured[*own]);
            vec![format!(
                "{}: assured {share} kW; {} modules of {} kW need {}",
                names[*own],
                plan.modules,
                in_kw(*size),
                in_kw(need)
            )]
        }
        Refusal::NoSuchNumber => vec![format!("this desk has the controllers 0 to {}: {}", opened.count - 1, names.join(", "))],
        _ => Vec::new(),
    }
}
