//! Neighbours on one feeder: the same calls of each controller, merged in different ways, with greedy neighbours between them. Who keeps
//! to its share is answered as if it were alone, and where all keep to theirs, every merging ends in the same desk.
use super::runner::planned;
use super::sheets;
use crate::random::Random;
use crate::{Desk, Refusal, Runner, LARGEST_SIZE, MOST_CONTROLLERS, MOST_POWER};

/// A call that claims power for a controller.
pub type Claimer = fn(&mut Desk, u32, u32) -> Result<(), Refusal>;

/// What a controller does: a call of its own, or a minute of one of its runners.
#[derive(Clone, Copy, Debug, PartialEq)]
enum Act {
    Claim(u32),
    HandBack(u32),
    Minute(usize),
    Look,
}

/// What was merged, and how often it came out so.
#[derive(Clone, Copy, Debug, Default)]
pub struct Counts {
    pub mergings: usize,
    /// Pairs of mergings in which the calls came in different orders, all keeping to their shares: the same desk and the same runners.
    pub same_desk: usize,
    /// Pairs of mergings with greedy neighbours, and those among them that ended in different desks.
    pub beside_greedy: usize,
    pub greedy_differ: usize,
    /// By number: claims and hand-backs of those who keep to their shares, and their minutes.
    pub calls: [usize; 27],
    pub minutes: [usize; 27],
    /// Minutes with calls due; lists of a controller that has minutes and calls by itself too.
    pub minutes_with_calls: usize,
    pub minutes_beside: usize,
    /// Claims of greedy neighbours beyond their shares, granted and refused.
    pub greedy_granted: usize,
    pub greedy_refused: usize,
    /// Calls that no controller of the desk makes, and changes that are refused.
    pub strangers: usize,
    pub refused_changes: usize,
    /// The exceptions: pairs of mergings in which a controller's look, at the same place among its calls, shows different figures.
    pub looks_differ: usize,
    /// Mergings with a granted change; pairs with one in which a controller is answered differently, and pairs in which all kept to the
    /// share in force throughout, and that end in different desks.
    pub changed: usize,
    pub changed_answers: usize,
    pub changed_desks: usize,
}

/// The desk and the runners on it.
#[derive(Clone)]
struct Yard {
    desk: Desk,
    runners: Vec<Runner>,
}

/// What a runner does, read from its card: the minute of each job's claim, of its hand-back, and the power.
struct Following {
    controller: u32,
    calls: Vec<(u32, u32, u32)>,
    /// Whether some start and later steps can leave the runner.
    good: bool,
}

impl Following {
    fn due(&self, minute: u32) -> Vec<Act> {
        let back = self.calls.iter().filter(|call| call.1 == minute).map(|call| Act::HandBack(call.2));
        back.chain(self.calls.iter().filter(|call| call.0 == minute).map(|call| Act::Claim(call.2))).collect()
    }

    fn is_over(&self, minute: u32) -> bool {
        self.calls.iter().all(|call| call.1 < minute)
    }
}

/// What a controller has for itself: its holding, and the minute of each runner.
#[derive(Clone)]
struct Own {
    holds: u32,
    minutes: Vec<u32>,
}

/// The number that a claim or a hand-back is given and the holding that it leaves, from the holding alone.
fn alone(holds: u32, act: Act) -> (u32, u32) {
    match act {
        Act::Claim(0) | Act::HandBack(0) => (15, holds),
        Act::Claim(power) => (0, holds + power),
        Act::HandBack(power) if power > holds => (18, holds),
        Act::HandBack(power) => (0, holds - power),
        Act::Minute(_) | Act::Look => unreachable!("no call"),
    }
}

/// The calls of an act, in turn; those behind a refused one are not made.
fn calls_of(act: Act, own: &Own, followings: &[Following]) -> Vec<Act> {
    match act {
        Act::Minute(i) if !followings[i].good => vec![],
        Act::Minute(i) => followings[i].due(own.minutes[i]),
        Act::Look => vec![],
        call => vec![call],
    }
}

/// Whether holding plus claim stays within the share, at each claim of an act.
fn keeps_within(share: u32, act: Act, own: &Own, followings: &[Following]) -> bool {
    let mut holds = own.holds;
    for call in calls_of(act, own, followings) {
        if matches!(call, Act::Claim(power) if holds + power > share) {
            return false;
        }
        let (number, after) = alone(holds, call);
        if number != 0 {
            return true;
        }
        holds = after;
    }
    true
}

impl Own {
    fn of(yard: &Yard, controller: u32) -> Own {
        Own { holds: yard.desk.held[controller as usize], minutes: yard.runners.iter().map(|runner| runner.minute).collect() }
    }

    /// The number that an act is given, from what the controller has for itself; and what it has afterwards.
    fn answer(&mut self, act: Act, followings: &[Following]) -> u32 {
        let Act::Minute(i) = act else {
            let (number, holds) = alone(self.holds, act);
            self.holds = holds;
            return number;
        };
        if !followings[i].good {
            return 14;
        }
        let mut holds = self.holds;
        for call in calls_of(act, self, followings) {
            let (number, after) = alone(holds, call);
            if number != 0 {
                return number;
            }
            holds = after;
        }
        self.holds = holds;
        self.minutes[i] += u32::from(!followings[i].is_over(self.minutes[i]));
        0
    }
}

/// A stretch: where it begins, and the acts of each controller that keeps to its share; the others are greedy.
struct Stretch {
    outset: Yard,
    followings: Vec<Following>,
    lists: Vec<Option<Vec<Act>>>,
    change: Option<(u32, Vec<u32>, Vec<u32>)>,
}

/// What a merging came to.
struct Merged {
    yard: Yard,
    numbers: Vec<Vec<u32>>,
    looks: Vec<Vec<u32>>,
    order: Vec<usize>,
    changed: bool,
    /// Whether all kept to the share in force.
    within: bool,
}

pub struct Neighbours {
    claimer: Claimer,
    random: Random,
    pub counts: Counts,
}

fn number(answer: Result<(), Refusal>) -> u32 {
    answer.err().map_or(0, Refusal::number)
}

impl Neighbours {
    /// Merges the library's calls.
    pub fn new(seed: u64) -> Neighbours {
        Neighbours::of(Desk::claim, seed)
    }

    /// Merges with another claim: a wrong one must be found out.
    pub fn of(claimer: Claimer, seed: u64) -> Neighbours {
        Neighbours { claimer, random: Random::new(seed), counts: Counts::default() }
    }

    // ---- the outset

    /// A desk that an opening and some calls leave, changes among them.
    fn desk(&mut self) -> Desk {
        let random = &mut self.random;
        let count = random.pick(&[2, 2, 3, 4, MOST_CONTROLLERS]);
        let most = random.pick(&[3, 40, 700, MOST_POWER / MOST_CONTROLLERS as u32]);
        let figures = |random: &mut Random| {
            let assured: Vec<u32> = (0..count).map(|_| random.between(0, most)).collect();
            let rest = random.pick(&[0, 1, most / 2, most]);
            let limit = (assured.iter().sum::<u32>() + rest).clamp(1, MOST_POWER);
            let ceilings: Vec<u32> = assured.iter().map(|share| random.between(*share, limit)).collect();
            (limit, assured, ceilings)
        };
        let (limit, assured, ceilings) = figures(random);
        let mut desk = Desk::open(limit, &assured, &ceilings).expect("the desk opens");
        for _ in 0..random.place(12) {
            let controller = random.place(count) as u32;
            let _ = match random.place(8) {
                0 => {
                    let (limit, assured, ceilings) = figures(random);
                    desk.change(limit, &assured, &ceilings)
                }
                1 | 2 => desk.hand_back(controller, random.between(0, desk.held[controller as usize])),
                _ => {
                    let room = desk.look(controller).expect("a controller of the desk");
                    desk.claim(controller, random.between(0, room))
                }
            };
        }
        desk
    }

    /// A runner for a controller that holds nothing, behind an accepted start, and what it does.
    fn runner(&mut self, desk: &Desk, controller: u32) -> Option<(Runner, Following)> {
        let random = &mut self.random;
        let mut sheet = if random.percent(50) { sheets::resting(random) } else { sheets::good(random) };
        sheet.changeover = sheet.changeover.min(2);
        for job in &mut sheet.jobs {
            (job.minutes, job.arrival) = (job.minutes.min(4), job.arrival.min(3));
        }
        let largest = (desk.assured[controller as usize] / u32::from(sheet.modules)).min(LARGEST_SIZE);
        let some = random.between(1, largest.max(1));
        let size = random.pick(&[largest, some]);
        let card = planned(&sheet);
        let mut runner = Runner::start(&sheet.bytes(), &card, desk, controller, size).ok()?;
        let row = |j: usize| {
            let at = |place: usize| u32::from(u16::from_le_bytes([card[12 * j + place], card[12 * j + place + 1]]));
            let modules: u32 = card[12 * j + 4..12 * j + 12].iter().map(|byte| byte.count_ones()).sum();
            (at(0), at(2) + u32::from(sheet.changeover), modules * size)
        };
        let calls = (0..sheet.jobs.len()).map(row).collect();
        let good = random.percent(95);
        if !good {
            runner.size = random.pick(&[0, LARGEST_SIZE + 1]);
        }
        Some((runner, Following { controller, calls, good }))
    }

    /// The outset with runners, some of them in the middle of their plans.
    fn outset(&mut self) -> (Yard, Vec<Following>) {
        let mut yard = Yard { desk: self.desk(), runners: vec![] };
        let mut followings = vec![];
        for controller in 0..yard.desk.count {
            let held = yard.desk.held[controller as usize];
            for _ in 0..self.random.pick(&[0, 0, 1, 1, 2]) {
                let _ = yard.desk.hand_back(controller, held);
                if let Some((runner, following)) = self.runner(&yard.desk, controller) {
                    yard.runners.push(runner);
                    followings.push(following);
                }
            }
        }
        for runner in &mut yard.runners {
            for _ in 0..self.random.pick(&[0, 0, 1, 5]) {
                let _ = runner.step(&mut yard.desk);
            }
        }
        (yard, followings)
    }

    /// Acts of a controller that keep its holding plus its claim within its share.
    fn acts(&mut self, yard: &Yard, followings: &[Following], controller: u32) -> Vec<Act> {
        let share = yard.desk.assured[controller as usize];
        let mut own = Own::of(yard, controller);
        let runners: Vec<usize> = (0..followings.len()).filter(|i| followings[*i].controller == controller).collect();
        let only_runs = !runners.is_empty() && self.random.percent(50);
        let mut acts = vec![];
        for _ in 0..self.random.pick(&[0, 3, 10, 20]) {
            let random = &mut self.random;
            let (room, some) = (share.saturating_sub(own.holds), random.between(0, own.holds));
            let within = random.between(0, room);
            let act = match random.place(10) {
                0 => Act::Look,
                _ if only_runs => Act::Minute(random.pick(&runners)),
                1 => Act::Claim(0),
                2 | 3 if room > 0 => Act::Claim(room),
                4 if room > 0 => Act::Claim(within),
                5 => Act::HandBack(random.pick(&[0, own.holds + 1, MOST_POWER, u32::MAX])),
                6 | 7 => Act::HandBack(random.pick(&[own.holds, some])),
                _ if runners.is_empty() => Act::HandBack(some),
                _ => Act::Minute(random.pick(&runners)),
            };
            if !keeps_within(share, act, &own, followings) {
                continue;
            }
            if act != Act::Look {
                own.answer(act, followings);
            }
            acts.push(act);
        }
        acts
    }

    // ---- mergings

    /// One merging of the lists, with looks and greedy calls between them.
    fn merging(&mut self, stretch: &Stretch) -> Merged {
        let count = stretch.lists.len();
        let greedy: Vec<u32> = (0..count as u32).filter(|c| stretch.lists[*c as usize].is_none()).collect();
        let mut left: Vec<&[Act]> = stretch.lists.iter().map(|list| list.as_deref().unwrap_or(&[])).collect();
        let [numbers, looks] = [(); 2].map(|()| vec![vec![]; count]);
        let mut merged = Merged { yard: stretch.outset.clone(), numbers, looks, order: vec![], changed: false, within: true };
        let mut change = stretch.change.as_ref();
        let (stay, between) = (self.random.pick(&[0, 50, 90, 100]), self.random.pick(&[10, 30, 60]));
        let mut turn = self.random.place(count);
        loop {
            if self.random.percent(between) {
                self.others(&mut merged.yard.desk, &greedy);
            }
            let waiting: Vec<usize> = (0..count).filter(|c| !left[*c].is_empty()).collect();
            if let Some((limit, assured, ceilings)) = change.filter(|_| waiting.is_empty() || self.random.percent(15)) {
                merged.changed = merged.yard.desk.change(*limit, assured, ceilings).is_ok();
                change = None;
            }
            if waiting.is_empty() {
                break;
            }
            if left[turn].is_empty() || !self.random.percent(stay) {
                turn = self.random.pick(&waiting);
            }
            let act = left[turn][0];
            left[turn] = &left[turn][1..];
            self.act(&mut merged, turn, act, &stretch.followings);
        }
        self.counts.mergings += 1;
        merged
    }

    /// An act of a controller that keeps to its share.
    fn act(&mut self, merged: &mut Merged, place: usize, act: Act, followings: &[Following]) {
        let (controller, yard) = (place as u32, &mut merged.yard);
        let own = Own::of(yard, controller);
        merged.within &= keeps_within(yard.desk.assured[place], act, &own, followings);
        let answer = match act {
            Act::Look => {
                merged.looks[place].push(yard.desk.look(controller).expect("a controller of the desk"));
                return;
            }
            Act::Claim(power) => number((self.claimer)(&mut yard.desk, controller, power)),
            Act::HandBack(power) => number(yard.desk.hand_back(controller, power)),
            Act::Minute(i) => number(yard.runners[i].step(&mut yard.desk)),
        };
        merged.numbers[place].push(answer);
        merged.order.push(place);
        if let Act::Minute(_) = act {
            self.counts.minutes[answer as usize] += 1;
            self.counts.minutes_with_calls += usize::from(!calls_of(act, &own, followings).is_empty());
        } else {
            self.counts.calls[answer as usize] += 1;
        }
    }

    /// What may stand between: a greedy call, one of no controller of the desk, or a change whose shares exceed its limit.
    fn others(&mut self, desk: &mut Desk, greedy: &[u32]) {
        let random = &mut self.random;
        if random.percent(10) {
            let stranger = random.pick(&[desk.count, 8, u32::MAX]);
            assert_eq!([desk.claim(stranger, 1), desk.hand_back(stranger, 1)].map(number), [14, 14]);
            self.counts.strangers += 1;
        }
        if random.percent(10) {
            let figures = vec![MOST_POWER; desk.count as usize];
            assert_eq!(number(desk.change(MOST_POWER, &figures, &figures)), 13);
            self.counts.refused_changes += 1;
        }
        let Some(controller) = greedy.get(random.place(greedy.len().max(1))) else {
            return;
        };
        let held = desk.held[*controller as usize];
        if random.percent(25) {
            let _ = desk.hand_back(*controller, random.between(0, held));
            return;
        }
        let room = desk.look(*controller).expect("a controller of the desk");
        let power = random.pick(&[room, room, room + 1, desk.limit, u32::MAX]);
        let granted = (self.claimer)(desk, *controller, power).is_ok();
        self.counts.greedy_granted += usize::from(granted && held + power > desk.assured[*controller as usize]);
        self.counts.greedy_refused += usize::from(!granted);
    }

    /// The answers, the holding and the runners of each controller that keeps to its share are those that it has alone.
    fn as_if_alone(&self, stretch: &Stretch, merged: &Merged) {
        assert!(merged.within, "who keeps to its share in one merging keeps to it in every other");
        for (controller, list) in stretch.lists.iter().enumerate() {
            let Some(list) = list else { continue };
            let mut own = Own::of(&stretch.outset, controller as u32);
            let calls = list.iter().filter(|act| **act != Act::Look);
            let numbers: Vec<u32> = calls.map(|act| own.answer(*act, &stretch.followings)).collect();
            let about = || format!("controller {controller}, {list:?} from {:?}", stretch.outset.desk);
            assert_eq!(merged.numbers[controller], numbers, "as if alone: {}", about());
            assert_eq!(merged.yard.desk.held[controller], own.holds, "as if alone: {}", about());
            for (i, runner) in merged.yard.runners.iter().enumerate() {
                let mine = stretch.followings[i].controller == controller as u32;
                let kept = Runner { minute: own.minutes[i], ..stretch.outset.runners[i] };
                assert!(!mine || *runner == kept, "as if alone, runner {i}: {}", about());
            }
        }
    }

    /// Two or three mergings of random lists: all keep to their shares, or some are greedy.
    pub fn stretch(&mut self, with_greedy: bool) {
        let stretch = self.lists(with_greedy, false);
        let merged: Vec<Merged> = (0..self.random.between(2, 3)).map(|_| self.merging(&stretch)).collect();
        merged.iter().for_each(|one| self.as_if_alone(&stretch, one));
        for [first, second] in merged.windows(2).map(|pair| [&pair[0], &pair[1]]) {
            for (controller, _) in stretch.lists.iter().enumerate().filter(|(_, list)| list.is_some()) {
                assert_eq!(first.numbers[controller], second.numbers[controller]);
                assert_eq!(first.yard.desk.held[controller], second.yard.desk.held[controller]);
            }
            assert_eq!(first.yard.runners, second.yard.runners);
            if with_greedy {
                self.counts.beside_greedy += 1;
                self.counts.greedy_differ += usize::from(first.yard.desk != second.yard.desk);
            } else {
                assert_eq!(first.yard.desk, second.yard.desk, "all keep to their shares");
                self.counts.same_desk += usize::from(first.order != second.order);
            }
            self.counts.looks_differ += usize::from(first.looks != second.looks);
        }
    }

    /// Two mergings of a stretch with a change of shares: the exception.
    pub fn changed_stretch(&mut self, with_greedy: bool) {
        let stretch = self.lists(with_greedy, true);
        let [first, second] = [(); 2].map(|()| self.merging(&stretch));
        self.counts.changed += usize::from(first.changed) + usize::from(second.changed);
        if first.changed || second.changed {
            let kept = first.within && second.within && !with_greedy;
            self.counts.changed_answers += usize::from(first.numbers != second.numbers);
            let differ = first.yard.desk != second.yard.desk;
            assert!(!kept || !differ || first.changed != second.changed, "granted in one and refused in the other");
            self.counts.changed_desks += usize::from(kept && differ);
        }
    }

    /// An outset and a list for each controller that keeps to its share; with greedy ones there are one or more of them, without runners.
    fn lists(&mut self, with_greedy: bool, with_change: bool) -> Stretch {
        let (outset, followings) = self.outset();
        let count = outset.desk.count as usize;
        let mut lists: Vec<Option<Vec<Act>>> = (0..count).map(|c| Some(self.acts(&outset, &followings, c as u32))).collect();
        let alone = self.random.place(count);
        for (controller, list) in lists.iter_mut().enumerate().filter(|(controller, _)| with_greedy && *controller != alone) {
            let first_other = controller == (alone + 1) % count;
            *list = list.take().filter(|_| !first_other && self.random.percent(50));
        }
        let minutes = lists.iter().flatten().filter(|list| {
            let minutes = list.iter().filter(|act| matches!(act, Act::Minute(_))).count();
            minutes > 0 && list.iter().any(|act| matches!(act, Act::Claim(_) | Act::HandBack(_)))
        });
        self.counts.minutes_beside += minutes.count();
        let change = with_change.then(|| self.figures(&outset.desk));
        Stretch { outset, followings, lists, change }
    }

    /// New figures: some shares lower, the others as before or higher; or a lower ceiling for one controller alone, which is granted only
    /// once that one has handed something back.
    fn figures(&mut self, desk: &Desk) -> (u32, Vec<u32>, Vec<u32>) {
        let (random, count) = (&mut self.random, desk.count as usize);
        let mut assured = desk.assured[..count].to_vec();
        let holding: Vec<usize> = (0..count).filter(|place| desk.held[*place] > 0).collect();
        if random.percent(50) && !holding.is_empty() {
            let mut ceilings = desk.ceiling[..count].to_vec();
            let place = random.pick(&holding);
            ceilings[place] = random.between(0, desk.held[place] - 1);
            assured[place] = assured[place].min(ceilings[place]);
            return (desk.limit, assured, ceilings);
        }
        for share in &mut assured {
            *share = random.pick(&[0, *share / 2, *share, *share, *share + 1]);
        }
        let limit = desk.limit.max(assured.iter().sum()).min(MOST_POWER);
        (limit, assured, vec![limit; count])
    }
}
