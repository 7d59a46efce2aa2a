//! The calls that search, each on a thread of its own.
use crate::clock::Clock;
use crate::so_far::Best;
use crate::taken::{Left, Taken};
use crate::waiting::{Search, Takes, Waiting};
use depot_host::on_time::{Deadlines, OnTime, Plan};
use depot_host::order::Order;
use depot_host::{card_length, earliest_end, plan, read, size as least_count, slack, Card, JobSlack, Reading, Refusal, Usage};
use std::sync::mpsc::{self, Receiver};
use std::thread;

/// What is searched for.
const EARLIEST: &str = "the earliest end";
const NOBODY_LATE: &str = "a plan in which nobody is late";
const SLACK: &str = "the slack of each bus";
const MODULES: &str = "the least number of modules";

/// By what the jobs of a list stand on the sheet that is planned: of plans that end alike it decides.
#[derive(Clone, Copy, PartialEq, Eq)]
pub enum By {
    /// As in the list, or on the sheet.
    Line,
    Departure,
    /// So that nobody is late, even if the plan ends later.
    OnTime,
}

/// What was found for a yard.
pub struct Found {
    /// The sheet that was planned, and its card's bytes, as the library left them.
    pub sheet: Vec<u8>,
    pub bytes: Vec<u8>,
    /// How its jobs stand on that sheet. All that follows has the yard's own order.
    pub order: Order,
    pub reading: Reading,
    pub card: Card,
    /// The slack of each job where it was asked for.
    pub slacks: Option<Vec<JobSlack>>,
    /// What is known of plans in which nobody is late, where it was asked for.
    pub on_time: Option<OnTime>,
    /// Whether nobody was to be late, even if the plan ends later.
    pub on_time_asked: bool,
    /// What was not settled, where it was taken before the search was over.
    pub taken: Option<Taken>,
}

/// Why there is no plan to show.
pub enum Failed {
    Refused(Refusal),
    /// None in which nobody is late; what is known of them.
    Late(OnTime),
    /// None in which nobody is late was found in so long.
    Stopped(String),
}

impl From<Refusal> for Failed {
    fn from(refusal: Refusal) -> Failed {
        Failed::Refused(refusal)
    }
}

/// Why a call has no answer.
enum Halt {
    Refused(Refusal),
    /// It is waited for no longer; the best plan so far, where that is one to take.
    Stopped(Option<Best>),
}

impl From<Refusal> for Halt {
    fn from(refusal: Refusal) -> Halt {
        Halt::Refused(refusal)
    }
}

type Slacks = Result<Vec<JobSlack>, Refusal>;

/// A plan, what is known of plans in which nobody is late, and what was not settled.
type Settled = (Plan, Option<OnTime>, Option<Left>);

/// The plan of a sheet with its jobs in an order; and where it is asked for the slack, by a search of its own, at the same time.
pub fn run(sheet: &[u8], by: By, memory: usize, with_slack: bool, waiting: &mut Waiting) -> Result<Found, Failed> {
    let reading = read(sheet)?;
    let deadlines = Deadlines::of(sheet, &reading);
    let mut calls = Calls { memory, waiting, with_slack, by, beside: None };
    let (plan, on_time, left) = match by {
        By::Line => calls.as_listed(sheet)?,
        By::Departure => calls.by_departure(&deadlines)?,
        By::OnTime => (calls.on_time(&deadlines)?, Some(OnTime::This), None),
    };
    let is_earliest = !matches!(left, Some(Left::Earliest(_)));
    let slacks = if with_slack && is_earliest { calls.slacks(&plan.sheet).transpose()? } else { None };
    let left = left.or((with_slack && slacks.is_none()).then_some(Left::Slack));
    let taken = left.map(|left| Taken { left, after: calls.waiting.how_long() });
    let slacks = slacks.map(|slacks| plan.order.slacks_back(&slacks));
    let Plan { order, sheet, bytes, card } = plan;
    Ok(Found { sheet, bytes, order, reading, card, slacks, on_time, on_time_asked: by == By::OnTime, taken })
}

/// The calls for one list.
struct Calls<'a> {
    memory: usize,
    waiting: &'a mut Waiting,
    with_slack: bool,
    by: By,
    /// The first sheet that was planned and, where it is asked for and was waited for, its slack.
    beside: Option<(Vec<u8>, Option<Slacks>)>,
}

impl Calls<'_> {
    /// The plan of a sheet as it is.
    fn as_listed(&mut self, sheet: &[u8]) -> Result<Settled, Failed> {
        let (bytes, left) = match self.card(sheet) {
            Ok(bytes) => (bytes, None),
            Err(halt) => {
                let Best { card, bound, exact, .. } = self.so_far(halt)?;
                (card, (!exact).then_some(Left::Earliest(bound)))
            }
        };
        Ok((Plan::as_listed(sheet, bytes), None, left))
    }

    /// The plan of a list by its departures. Where it is waited for no longer, the best one so far.
    fn by_departure(&mut self, deadlines: &Deadlines) -> Result<Settled, Failed> {
        let first = match deadlines.first(|sheet| self.card(sheet)) {
            Ok(first) => first,
            Err(halt) => {
                let Best { card, bound, exact, .. } = self.so_far(halt)?;
                let plan = deadlines.first(|_| Ok::<_, Failed>(card.clone()))?;
                if !exact {
                    return Ok((plan, None, Some(Left::Earliest(bound))));
                }
                plan
            }
        };
        let (plan, known) = deadlines.improved(first, |sheet| self.card(sheet));
        match known {
            Ok(known) => Ok((plan, Some(known), None)),
            Err(Halt::Refused(refusal)) => Err(refusal.into()),
            Err(Halt::Stopped(_)) => {
                let is_late = deadlines.late_minutes(&plan.card) > 0;
                let known = if is_late { OnTime::NotBefore(plan.card.end) } else { OnTime::This };
                Ok((plan, Some(known), Some(Left::Departures)))
            }
        }
    }

    /// The first plan in which nobody is later than it must be.
    fn on_time(&mut self, deadlines: &Deadlines) -> Result<Plan, Failed> {
        match deadlines.plan(|sheet| self.card(sheet)).map_err(|halt| self.failed(halt))? {
            (plan, OnTime::This) => Ok(plan),
            (_, known @ OnTime::From(at)) => {
                let later = deadlines.plan_ending(at, |sheet| self.card(sheet)).map_err(|halt| self.failed(halt))?;
                later.ok_or(Failed::Late(known))
            }
            (_, known) => Err(Failed::Late(known)),
        }
    }

    fn failed(&self, halt: Halt) -> Failed {
        match halt {
            Halt::Refused(refusal) => refusal.into(),
            Halt::Stopped(_) => Failed::Stopped(self.waiting.how_long()),
        }
    }

    /// The best plan so far of the sheet whose call has no answer.
    fn so_far(&self, halt: Halt) -> Result<Best, Failed> {
        match halt {
            Halt::Stopped(Some(best)) => Ok(best),
            halt => Err(self.failed(halt)),
        }
    }

    /// The card's bytes of a sheet; of the first one the slack too where it is asked for.
    fn card(&mut self, sheet: &[u8]) -> Result<Vec<u8>, Halt> {
        let is_first = self.beside.is_none();
        let takes = match self.by {
            By::OnTime => Takes::Nothing,
            By::Line | By::Departure if is_first => Takes::Best,
            By::Line | By::Departure => Takes::Found,
        };
        let (lent, memory) = (sheet.to_vec(), self.memory);
        let found = begun(move || planned(&lent, memory));
        let slacks = (is_first && self.with_slack).then(|| self.begin_slack(sheet));
        let what = if is_first { EARLIEST } else { NOBODY_LATE };
        let bytes = self.waiting.answer(&found, &Search { sheet, what, memory, takes }).map_err(Halt::Stopped)??;
        if is_first {
            let slacks = slacks.and_then(|slacks| self.wait_for_slack(&slacks, sheet));
            self.beside = Some((sheet.to_vec(), slacks));
        }
        Ok(bytes)
    }

    /// The slack of the plan of a sheet, unless it is waited for no longer.
    fn slacks(&mut self, sheet: &[u8]) -> Option<Slacks> {
        match self.beside.take() {
            Some((first, slacks)) if first == sheet => slacks,
            _ => self.wait_for_slack(&self.begin_slack(sheet), sheet),
        }
    }

    fn begin_slack(&self, sheet: &[u8]) -> Receiver<Slacks> {
        let (lent, memory) = (sheet.to_vec(), self.memory);
        begun(move || slack(&lent, &mut vec![0; memory]))
    }

    fn wait_for_slack(&mut self, slacks: &Receiver<Slacks>, sheet: &[u8]) -> Option<Slacks> {
        let takes = if self.by == By::OnTime { Takes::Nothing } else { Takes::Found };
        self.waiting.answer(slacks, &Search { sheet, what: SLACK, memory: self.memory, takes }).ok()
    }
}

fn planned(sheet: &[u8], memory: usize) -> Result<Vec<u8>, Refusal> {
    let mut card = vec![0; card_length(read(sheet)?.jobs.len())];
    plan(sheet, &mut card, &mut vec![0; memory]).map(|()| card)
}

/// An end that no plan is earlier than but, where it is not the bound itself, by the minutes between.
#[derive(Clone, Copy)]
pub struct Ends {
    pub end: u16,
    pub bound: u16,
}

/// The earliest end alone, or what is known of it where it is waited for no longer.
pub fn end_until(sheet: &[u8], memory: usize, waiting: &mut Waiting) -> Result<Ends, Refusal> {
    let lent = sheet.to_vec();
    let found = begun(move || earliest_end(&lent, &mut vec![0; memory]));
    match waiting.answer(&found, &Search { sheet, what: EARLIEST, memory, takes: Takes::Best }) {
        Ok(end) => end.map(|end| Ends { end, bound: end }),
        Err(best) => {
            let Best { end, bound, .. } = best.expect("a sheet that is not refused has a plan");
            Ok(Ends { end, bound })
        }
    }
}

/// The earliest end alone, on a cabinet of so many modules, which the sheet has.
pub fn end_on(sheet: &[u8], modules: u16, memory: usize, clock: Option<Clock>) -> Result<u16, Refusal> {
    let what = format!("{EARLIEST} on {modules} modules");
    searched(&Search { sheet, what: &what, memory, takes: Takes::Best }, clock, earliest_end)
}

/// The least module count, and the bytes of the card for it.
pub fn size(sheet: &[u8], by: u16, memory: usize) -> Result<(u16, Vec<u8>), Refusal> {
    searched(&Search { sheet, what: MODULES, memory, takes: Takes::Nothing }, None, move |sheet, work| {
        let mut card = vec![0; card_length(read(sheet)?.jobs.len())];
        least_count(sheet, by, &mut card, work).map(|modules| (modules, card))
    })
}

/// The use of the cabinet.
pub fn usage(sheet: &[u8], memory: usize, clock: Option<Clock>) -> Result<Usage, Refusal> {
    searched(&Search { sheet, what: EARLIEST, memory, takes: Takes::Best }, clock, depot_host::usage)
}

/// What a call that is lent a sheet and working memory answers, however long it takes.
fn searched<T, F>(search: &Search, clock: Option<Clock>, call: F) -> T
where
    T: Send + 'static,
    F: FnOnce(&[u8], &mut [u8]) -> T + Send + 'static,
{
    let (lent, memory) = (search.sheet.to_vec(), search.memory);
    let found = begun(move || call(&lent, &mut vec![0; memory]));
    let Ok(answer) = Waiting::for_ever(clock).answer(&found, search) else { panic!("it is waited for until it is over") };
    answer
}

/// Where the answer of a call comes, which goes on by itself.
fn begun<T: Send + 'static>(call: impl FnOnce() -> T + Send + 'static) -> Receiver<T> {
    let (send, receive) = mpsc::channel();
    thread::spawn(move || send.send(call()).ok());
    receive
}
