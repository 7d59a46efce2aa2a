//! Plans in which nobody is late.
//!
//! A plan read from its end to its start is a plan of the mirrored list: there each job waits for those that waited for it, and arrives as
//! long after the start as it had to end before the plan's end. The library knows arrivals, so its earliest ends of mirrored lists say
//! when the first plan ends in which nobody is late. Arrivals of the list itself have no mirror: where a bus is still on the road that
//! minute is a bound, and it is the answer where the mirrored plan keeps the arrivals all the same.
//!
//! The planning call is the caller's, and so is why it has no answer: a refusal, or that nobody waits for it any longer.
use crate::order::Order;
use crate::{Card, Job, Reading};
use std::cmp::Reverse;

/// The last arrival that a sheet takes.
const LAST_ARRIVAL: u16 = 1440;

/// A plan of a list whose jobs stand in an order.
#[derive(Clone)]
pub struct Plan {
    pub order: Order,
    /// The sheet that was planned.
    pub sheet: Vec<u8>,
    /// The card's bytes, as the planning call left them.
    pub bytes: Vec<u8>,
    /// The same card in the list's order.
    pub card: Card,
}

impl Plan {
    /// The plan of a sheet whose jobs keep their order.
    pub fn as_listed(sheet: &[u8], bytes: Vec<u8>) -> Plan {
        let jobs = Card::of(&bytes).expect("an answered call leaves a card").rows.len();
        Plan::of(Order::as_listed(jobs), sheet.to_vec(), bytes)
    }

    /// The plan of a sheet whose jobs stand in this order.
    pub fn of(order: Order, sheet: Vec<u8>, bytes: Vec<u8>) -> Plan {
        let card = order.card_back(&Card::of(&bytes).expect("an answered call leaves a card"));
        Plan { order, sheet, bytes, card }
    }
}

/// What is known of plans in which nobody is later than it must be.
#[derive(Clone, Copy, Debug, PartialEq, Eq)]
pub enum OnTime {
    /// This plan is one.
    This,
    /// The first of them ends then, later than this plan.
    From(u16),
    /// None of them ends before that minute.
    NotBefore(u16),
    /// There is none, however late it ends.
    Never,
}

/// A list, and the minute by which each of its jobs is to end: its departure or, where it and those that it waits for cannot keep that, the
/// earliest end that they leave it.
pub struct Deadlines<'a> {
    list: &'a [u8],
    figures: &'a Reading,
    due: Vec<u16>,
}

/// What the mirrored lists say.
enum Mirrored {
    /// The minute at which the first plan ends in which nobody is late, and the starts of one, arrivals left aside.
    Ends(u16, Vec<u16>),
    Never,
    /// A mirrored list cannot be written from this minute on.
    Unknown(u16),
}

impl Deadlines<'_> {
    /// Those of a list's own sheet, of which these are the figures, and which has a plan.
    pub fn of<'a>(list: &'a [u8], figures: &'a Reading) -> Deadlines<'a> {
        let heads = earliest_ends(figures);
        let due = figures.jobs.iter().zip(heads).map(|(job, end)| end.max(job.departure)).collect();
        Deadlines { list, figures, due }
    }

    /// Of each job that is late in every plan the earliest end that it can have.
    pub fn always_late(&self) -> Vec<Option<u16>> {
        self.figures.jobs.iter().zip(&self.due).map(|(job, due)| Some(*due).filter(|due| *due > job.departure)).collect()
    }

    /// The minutes by which the jobs of a card, in the list's order, are later than they must be, all together.
    pub fn late_minutes(&self, card: &Card) -> u32 {
        card.rows.iter().zip(&self.due).map(|(row, due)| u32::from(row.end.saturating_sub(*due))).sum()
    }

    /// The plan that ends first, with the jobs in the order of their departures. Where that leaves somebody late, the order with the fewest
    /// late minutes of that one, that of the mirrored list and that of arrivals; and what is known of plans in which nobody is late.
    pub fn plan<E>(&self, mut call: impl FnMut(&[u8]) -> Result<Vec<u8>, E>) -> Result<(Plan, OnTime), E> {
        let first = self.first(&mut call)?;
        let (best, known) = self.improved(first, call);
        Ok((best, known?))
    }

    /// The plan that ends first, with the jobs in the order of their departures, by one call.
    pub fn first<E>(&self, mut call: impl FnMut(&[u8]) -> Result<Vec<u8>, E>) -> Result<Plan, E> {
        self.planned(Order::by_departure(&self.figures.jobs), self.figures, &mut call)
    }

    /// The best plan by further calls, and what is known of plans in which nobody is late; where a call has no answer why not, and the best
    /// plan up to there.
    pub fn improved<E>(&self, first: Plan, mut call: impl FnMut(&[u8]) -> Result<Vec<u8>, E>) -> (Plan, Result<OnTime, E>) {
        let mut plans = vec![first];
        let known = self.further(&mut plans, &mut call);
        let best = plans.into_iter().min_by_key(|plan| self.late_minutes(&plan.card)).expect("a first plan");
        let known = if self.late_minutes(&best.card) == 0 { known.map(|_| OnTime::This) } else { known };
        (best, known)
    }

    /// Settles the first plan, and where that leaves somebody late adds others.
    fn further<E>(&self, plans: &mut Vec<Plan>, call: &mut impl FnMut(&[u8]) -> Result<Vec<u8>, E>) -> Result<OnTime, E> {
        let jobs = &self.figures.jobs;
        plans[0] = self.settled(plans[0].clone(), call)?;
        if self.late_minutes(&plans[0].card) == 0 {
            return Ok(OnTime::This);
        }
        let end = plans[0].card.end;
        let known = match self.mirrored(end, call)? {
            Mirrored::Ends(at, starts) => {
                let plan = self.planned(self.in_turn(&starts), self.figures, call)?;
                plans.push(self.settled(plan, call)?);
                if at > end && self.has_arrived(&starts) {
                    OnTime::From(at)
                } else {
                    OnTime::NotBefore(at)
                }
            }
            Mirrored::Never => OnTime::Never,
            Mirrored::Unknown(from) => OnTime::NotBefore(from),
        };
        if self.has_arrivals() && plans.iter().all(|plan| self.late_minutes(&plan.card) > 0) {
            let order = Order::by(jobs.len(), |job| (jobs[job].arrival, jobs[job].departure));
            let plan = self.planned(order, self.figures, call)?;
            plans.push(self.settled(plan, call)?);
        }
        Ok(known)
    }

    /// The first plan in which nobody is later than it must be, where it is known when that ends; none where its sheet cannot be written.
    ///
    /// The jobs stand in the order in which the mirrored plan starts them, and one that ends last in it is held back until then. So no plan
    /// of the sheet ends earlier, and by the tie rule each job starts no later than in the mirrored plan.
    pub fn plan_ending<E>(&self, at: u16, mut call: impl FnMut(&[u8]) -> Result<Vec<u8>, E>) -> Result<Option<Plan>, E> {
        let Mirrored::Ends(_, starts) = self.mirrored(at, &mut call)? else { return Ok(None) };
        let jobs = &self.figures.jobs;
        let last = (0..jobs.len()).find(|job| starts[*job] + jobs[*job].minutes == at).filter(|job| starts[*job] <= LAST_ARRIVAL);
        let Some(last) = last else { return Ok(None) };
        let mut held = self.figures.clone();
        held.jobs[last].arrival = starts[last];
        let plan = self.planned(self.in_turn(&starts), &held, &mut call)?;
        Ok((self.late_minutes(&plan.card) == 0).then_some(plan))
    }

    /// The plan of these figures in an order.
    fn planned<E>(&self, order: Order, figures: &Reading, call: &mut impl FnMut(&[u8]) -> Result<Vec<u8>, E>) -> Result<Plan, E> {
        let sheet = order.sheet(self.list, figures);
        Ok(Plan::of(order, sheet.clone(), call(&sheet)?))
    }

    /// A plan, settled. Where a bus is on the road or late, the jobs are put into the order in which they could start if each moved
    /// ahead as far as the others leave room: by the tie rule none starts later then, and none waits behind one that has not arrived.
    fn settled<E>(&self, plan: Plan, call: &mut impl FnMut(&[u8]) -> Result<Vec<u8>, E>) -> Result<Plan, E> {
        if !self.has_arrivals() && self.late_minutes(&plan.card) == 0 {
            return Ok(plan);
        }
        let starts = self.moved_ahead(&plan.card);
        if starts.iter().zip(&plan.card.rows).all(|(start, row)| *start == row.start) {
            return Ok(plan);
        }
        self.planned(Order::by(starts.len(), |job| (starts[job], self.due[job])), self.figures, call)
    }

    /// The starts of a plan's jobs after each, in the order of their starts, moved ahead as far as the others leave room.
    fn moved_ahead(&self, card: &Card) -> Vec<u16> {
        let jobs = &self.figures.jobs;
        let mut starts: Vec<u16> = card.rows.iter().map(|row| row.start).collect();
        let mut turn: Vec<usize> = (0..jobs.len()).collect();
        turn.sort_by_key(|job| starts[*job]);
        for job in turn {
            let ends = (0..jobs.len()).filter(|i| jobs[job].earlier >> i & 1 == 1).map(|i| starts[i] + jobs[i].minutes);
            let ready = ends.max().unwrap_or(0).max(jobs[job].arrival);
            starts[job] = (ready..starts[job]).find(|start| self.has_room(&starts, job, *start)).unwrap_or(starts[job]);
        }
        starts
    }

    /// Whether a job has room from a minute on, while all others start as they do.
    fn has_room(&self, starts: &[u16], job: usize, start: u16) -> bool {
        let (jobs, rest) = (&self.figures.jobs, self.figures.changeover);
        let keeps = |i: usize, minute: u16| starts[i] <= minute && minute < starts[i] + jobs[i].minutes + rest;
        let others = || (0..jobs.len()).filter(|i| *i != job);
        let taken = |minute: u16| others().filter(|i| keeps(*i, minute)).map(|i| u16::from(jobs[i].modules)).sum::<u16>();
        let until = start + jobs[job].minutes + rest;
        let minutes = others().map(|i| starts[i]).filter(|minute| (start..until).contains(minute)).chain([start]);
        minutes.into_iter().all(|minute| taken(minute) + u16::from(jobs[job].modules) <= self.figures.modules)
    }

    fn has_arrivals(&self) -> bool {
        self.figures.jobs.iter().any(|job| job.arrival > 0)
    }

    /// The jobs by these starts, or by their arrivals where those are later.
    fn in_turn(&self, starts: &[u16]) -> Order {
        Order::by(starts.len(), |job| (starts[job].max(self.figures.jobs[job].arrival), self.due[job]))
    }

    /// Whether every job has arrived at these starts.
    fn has_arrived(&self, starts: &[u16]) -> bool {
        self.figures.jobs.iter().zip(starts).all(|(job, start)| job.arrival <= *start)
    }

    /// The first minute from this one on at which a plan can end in which nobody is late, arrivals left aside.
    ///
    /// Where the list mirrored at a minute ends later than that minute, no such plan ends by then, nor before the mirrored end: mirrored
    /// at a later minute the list ends no earlier. So the first minute lies between such ends and a minute at which there is a plan.
    /// Behind the last deadline every mirrored arrival moves with the minute, and so does the end: if there is no plan by then, there
    /// is none.
    fn mirrored<E>(&self, from: u16, call: &mut impl FnMut(&[u8]) -> Result<Vec<u8>, E>) -> Result<Mirrored, E> {
        let mut low = match self.asked(from, call)? {
            None => return Ok(Mirrored::Unknown(from)),
            Some(Ok(starts)) => return Ok(Mirrored::Ends(from, starts)),
            Some(Err(end)) => end,
        };
        let last = self.due.iter().copied().max().unwrap_or(0);
        if last <= from {
            return Ok(Mirrored::Never);
        }
        let askable = last.min(self.due.iter().copied().min().unwrap_or(0) + LAST_ARRIVAL);
        let (mut high, mut starts) = match self.asked(askable, call)? {
            Some(Ok(starts)) => (askable, starts),
            Some(Err(_)) if askable == last => return Ok(Mirrored::Never),
            Some(Err(end)) => return Ok(Mirrored::Unknown(low.max(end))),
            None => return Ok(Mirrored::Unknown(low)),
        };
        let mut middle = false;
        while low < high {
            let at = if middle { low.midpoint(high) } else { low };
            match self.asked(at, call)?.expect("it can be asked at a later minute") {
                Ok(found) => (high, starts) = (at, found),
                Err(end) => low = end,
            }
            middle = !middle;
        }
        Ok(Mirrored::Ends(high, starts))
    }

    /// The starts of a plan that ends by a minute and in which nobody is late, arrivals left aside, or the minute before which none ends.
    /// None where the mirrored list cannot be written.
    fn asked<E>(&self, at: u16, call: &mut impl FnMut(&[u8]) -> Result<Vec<u8>, E>) -> Result<Option<Result<Vec<u16>, u16>>, E> {
        let Some(figures) = self.mirror(at) else { return Ok(None) };
        let order = Order::by(self.due.len(), |job| Reverse(self.due[job]));
        let card = self.planned(order, &figures, call)?.card;
        let starts = || card.rows.iter().map(|row| at - row.end).collect();
        Ok(Some(if card.end <= at { Ok(starts()) } else { Err(card.end) }))
    }

    /// The list mirrored at a minute; none where a job would arrive later than a sheet can say.
    fn mirror(&self, at: u16) -> Option<Reading> {
        let jobs = &self.figures.jobs;
        let followers = |job: usize| (0..jobs.len()).filter(|i| jobs[*i].earlier >> job & 1 == 1).fold(0, |set, i| set | 1 << i);
        let mirrored = |(number, job): (usize, &Job)| {
            let arrival = at.saturating_sub(self.due[number]);
            (arrival <= LAST_ARRIVAL).then(|| Job { earlier: followers(number), arrival, departure: 0, ..*job })
        };
        let jobs = jobs.iter().enumerate().map(mirrored).collect::<Option<Vec<Job>>>()?;
        Some(Reading { jobs, ..self.figures.clone() })
    }
}

/// The earliest end of each job beside those alone that it waits for: their modules rest first where it cannot do without them.
fn earliest_ends(figures: &Reading) -> Vec<u16> {
    let jobs = &figures.jobs;
    let mut ends: Vec<u16> = jobs.iter().map(|job| job.arrival + job.minutes).collect();
    for _ in jobs {
        for (number, job) in jobs.iter().enumerate() {
            let meet = |i: usize| u16::from(jobs[i].modules) + u16::from(job.modules) > figures.modules;
            let free = |i: usize| ends[i].saturating_add(if meet(i) { figures.changeover } else { 0 });
            let earlier = (0..jobs.len()).filter(|i| job.earlier >> i & 1 == 1).map(free).max();
            ends[number] = earlier.unwrap_or(0).max(job.arrival).saturating_add(job.minutes);
        }
    }
    ends
}
