//! The plan runner against a reading of the requirements: numbers, desks and runners, on nights with greedy neighbours and changes of
//! shares, with cards of every kind of fault, and with runners that no start and later steps can leave.
use super::sheets;
use crate::random::Random;
use crate::raw_sheet::Sheet;
use crate::reference::runner::Follower;
use crate::{card_length, ffi, plan, reference, Desk, Runner, LONGEST_CARD, LONGEST_SHEET, MOST_CONTROLLERS, MOST_POWER};

/// A call that does a runner's minute.
pub type Stepper = fn(Runner, Desk) -> ffi::Stepped;

/// The library's step.
pub fn library_step(runner: Runner, desk: Desk) -> ffi::Stepped {
    // SAFETY: the call is lent nothing.
    unsafe { ffi::depot_runner_step(runner, desk) }
}

/// What is spoilt on a card.
#[derive(Clone, Copy, Debug)]
pub enum CardFault {
    Length,
    RowStart,
    RowEnd,
    RowMoved,
    RowModules,
    Order,
    TrailerOffset,
    TrailerEnd,
    TrailerCount,
}

pub const CARD_FAULTS: [CardFault; 9] = [
    CardFault::Length,
    CardFault::RowStart,
    CardFault::RowEnd,
    CardFault::RowMoved,
    CardFault::RowModules,
    CardFault::Order,
    CardFault::TrailerOffset,
    CardFault::TrailerEnd,
    CardFault::TrailerCount,
];

/// What is spoilt in a runner.
#[derive(Clone, Copy, Debug)]
pub enum RunnerFault {
    Controller,
    Size,
    Minute,
    SheetLength,
    SheetByte,
    BehindSheet,
    CardLength,
    CardByte,
    BehindCard,
}

pub const RUNNER_FAULTS: [RunnerFault; 9] = [
    RunnerFault::Controller,
    RunnerFault::Size,
    RunnerFault::Minute,
    RunnerFault::SheetLength,
    RunnerFault::SheetByte,
    RunnerFault::BehindSheet,
    RunnerFault::CardLength,
    RunnerFault::CardByte,
    RunnerFault::BehindCard,
];

/// What was compared, and how often it came out so.
#[derive(Clone, Copy, Debug, Default)]
pub struct Counts {
    /// By number: starts and steps.
    pub starts: [usize; 27],
    pub steps: [usize; 27],
    /// Steps that made calls, that had none due, and that came behind the last hand-back.
    pub with_calls: usize,
    pub quiet: usize,
    pub behind: usize,
    /// Steps of runners whose conditions were kept, with a call due: every one was granted.
    pub assured: usize,
    /// Changes of the shares that were granted between two steps.
    pub changes: usize,
    /// Starts with a card with each fault, refused and accepted.
    pub spoilt_cards: [[usize; 2]; 9],
    /// Steps of a runner with each fault: refused with 14, and not.
    pub spoilt_runners: [[usize; 2]; 9],
}

pub struct Runs {
    stepper: Stepper,
    random: Random,
    pub counts: Counts,
}

/// A runner of the library, the reference's beside it, and whether its conditions are still kept.
struct Running {
    runner: Runner,
    follower: Follower,
    need: u32,
    undisturbed: bool,
}

impl Runs {
    /// Compares the library's calls.
    pub fn new(seed: u64) -> Runs {
        Runs::of(library_step, seed)
    }

    /// Compares another step: what is compared must find fault with a wrong one.
    pub fn of(stepper: Stepper, seed: u64) -> Runs {
        Runs { stepper, random: Random::new(seed), counts: Counts::default() }
    }

    /// The library's start is the reference's.
    fn start(&mut self, sheet: &[u8], card: &[u8], desk: &Desk, controller: u32, size: u32) -> Option<Running> {
        // SAFETY: two live slices, which are read.
        let answer =
            unsafe { ffi::depot_runner_start(sheet.as_ptr(), sheet.len(), card.as_ptr(), card.len(), *desk, controller, size) };
        let expected = Follower::start(sheet, card, desk, controller, size);
        let refusal = *expected.as_ref().err().unwrap_or(&0);
        let runner = expected.as_ref().map_or(Runner::NONE, Follower::shown);
        let about = || format!("controller {controller}, size {size}, {desk:?}, card {card:02x?} for {sheet:02x?}");
        assert_eq!(answer, ffi::Started { refusal, runner }, "{}", about());
        self.counts.starts[refusal as usize] += 1;
        let modules = reference::reading::read(sheet).map_or(0, |sheet| sheet.modules as u32);
        expected.ok().map(|follower| Running { runner, follower, need: modules * size, undisturbed: true })
    }

    /// The library's step of a runner is the reference's, and granted where the conditions were kept.
    fn step(&mut self, running: &mut Running, desk: &mut Desk) -> u32 {
        let answer = (self.stepper)(running.runner, *desk);
        let (due, over) = (running.follower.due(), running.follower.is_over());
        let expected = running.follower.step(desk);
        let refusal = *expected.as_ref().err().unwrap_or(&0);
        let left = ffi::Stepped { refusal, desk: expected.unwrap_or(*desk), runner: running.follower.shown() };
        assert_eq!(answer, left, "step of {:?} on {desk:?}", running.runner);
        let assured = running.undisturbed && due > 0;
        assert!(!assured || refusal == 0, "{refusal}: step of {:?} on {desk:?}", running.runner);
        assert!(due == 0 || !over);
        assert!(due > 0 || refusal != 0 || answer.desk == *desk, "a step without a call leaves the desk");
        assert!(!over || refusal != 0 || answer.runner == running.runner, "a step behind the last hand-back changes nothing");
        self.counts.steps[refusal as usize] += 1;
        self.counts.assured += usize::from(assured);
        if refusal == 0 {
            let kind = match (due, over) {
                (_, true) => &mut self.counts.behind,
                (0, false) => &mut self.counts.quiet,
                _ => &mut self.counts.with_calls,
            };
            *kind += 1;
        }
        (running.runner, *desk) = (answer.runner, answer.desk);
        refusal
    }

    /// A step of any runner, which some start and later steps leave or none.
    fn step_of_any(&mut self, runner: Runner, desk: Desk) -> u32 {
        let answer = (self.stepper)(runner, desk);
        let mut follower = Follower::left_as(&runner);
        let stepped = follower.as_mut().map_or(Err(14), |follower| follower.step(&desk));
        let left = follower.map_or(runner, |follower| follower.shown());
        let refusal = *stepped.as_ref().err().unwrap_or(&0);
        let expected = ffi::Stepped { refusal, desk: stepped.unwrap_or(desk), runner: left };
        assert_eq!(answer, expected, "step of {runner:?} on {desk:?}");
        self.counts.steps[refusal as usize] += 1;
        refusal
    }

    // ---- nights

    /// A night on one feeder: up to three runners of different controllers, the others greedy, with changes of shares and now and then a
    /// call that breaks a condition.
    pub fn night(&mut self) {
        let runners = self.random.pick(&[1, 1, 1, 2, 3]);
        let plans: Vec<(Vec<u8>, Vec<u8>, u32)> = (0..runners).map(|_| self.sheet_and_card()).collect();
        let mut desk = self.desk_for(&plans.iter().map(|(_, _, need)| *need).collect::<Vec<_>>());
        let mut night = Vec::new();
        for (controller, (sheet, card, need)) in plans.iter().enumerate() {
            let modules = reference::reading::read(sheet).expect("it reads").modules as u32;
            night.extend(self.start(sheet, card, &desk, controller as u32, need / modules));
        }
        let disturbing = self.random.percent(30);
        for _ in 0..self.random.pick(&[40, 80, 80, 160]) {
            self.between_minutes(&mut desk, &mut night, disturbing);
            for running in &mut night {
                let late = self.random.percent(10);
                if !late {
                    self.step(running, &mut desk);
                }
                if self.random.percent(3) {
                    self.spoilt_runner(running.runner, desk);
                }
            }
            if night.iter().all(|running| running.follower.is_over()) && self.random.percent(60) {
                break;
            }
        }
    }

    /// A sheet, a card for it, and N times a size of a module.
    fn sheet_and_card(&mut self) -> (Vec<u8>, Vec<u8>, u32) {
        let mut sheet = if self.random.percent(50) { sheets::resting(&mut self.random) } else { sheets::good(&mut self.random) };
        sheet.jobs.iter_mut().for_each(|job| {
            job.minutes = job.minutes.min(30);
            job.arrival = job.arrival.min(40);
        });
        let card = if self.random.percent(50) { planned(&sheet) } else { self.foreign(&sheet) };
        let size = self.random.pick(&[1, 1, 300, 500, 10_000, 2_000]).min(MOST_POWER / 3 / u32::from(sheet.modules));
        (sheet.bytes(), card, u32::from(sheet.modules) * size)
    }

    /// The card of a valid plan that no planner would make: jobs in a random order, with waits, on any free modules.
    fn foreign(&mut self, sheet: &Sheet) -> Vec<u8> {
        let n = sheet.jobs.len();
        let mut rows: Vec<Option<(u32, u32, u64)>> = vec![None; n];
        let shift = self.random.pick(&[0, 0, 0, 3, 20]);
        while rows.iter().any(Option::is_none) {
            let j = self.random.place(n);
            let job = &sheet.jobs[j];
            if rows[j].is_some() || (0..n).any(|i| job.earlier >> i & 1 == 1 && rows[i].is_none()) {
                continue;
            }
            let ends = (0..n).filter(|i| job.earlier >> i & 1 == 1).map(|i| rows[i].expect("it is placed").1);
            let mut start = ends.max().unwrap_or(0).max(u32::from(job.arrival)) + shift + self.random.pick(&[0, 0, 0, 1, 5]);
            rows[j] = loop {
                let end = start + u32::from(job.minutes);
                let rest = u32::from(sheet.changeover);
                let taken = |m: usize| {
                    let beside = |row: &(u32, u32, u64)| row.0 < end + rest && start < row.1 + rest;
                    rows.iter().flatten().any(|row| row.2 >> m & 1 == 1 && beside(row))
                };
                let mut free: Vec<usize> = (0..usize::from(sheet.modules)).filter(|m| !taken(*m)).collect();
                if free.len() >= usize::from(job.modules) {
                    self.random.shuffle(&mut free);
                    break Some((start, end, free.iter().take(job.modules.into()).map(|m| 1 << m).sum()));
                }
                start += 1;
            };
        }
        let rows: Vec<(u32, u32, u64)> = rows.into_iter().flatten().collect();
        let mut order: Vec<usize> = (0..n).collect();
        self.random.shuffle(&mut order);
        order.sort_by_key(|j| rows[*j].0);
        card(&rows, &order)
    }

    /// A desk whose first controllers are assured of these needs, or a little more, beside one or more others.
    fn desk_for(&mut self, needs: &[u32]) -> Desk {
        let others = self.random.between(1, (MOST_CONTROLLERS - needs.len()) as u32) as usize;
        let mut assured: Vec<u32> = needs.iter().map(|need| need + self.random.pick(&[0, 0, 0, 1, 7])).collect();
        let free = self.random.pick(&[0, 1, 10, 700, 5_000]);
        assured.extend((0..others).map(|_| self.random.between(0, free / others as u32)));
        let limit = (assured.iter().sum::<u32>() + self.random.pick(&[0, 0, 3, 300, 4_000])).clamp(1, MOST_POWER);
        Desk::open(limit, &assured, &vec![limit; assured.len()]).expect("the desk opens")
    }

    /// What happens between two minutes: greedy claims and hand-backs of the others, changes of shares, and, where the night is a
    /// disturbed one, calls that break a condition.
    fn between_minutes(&mut self, desk: &mut Desk, night: &mut [Running], disturbing: bool) {
        let own: Vec<u32> = night.iter().map(|running| running.runner.controller).collect();
        let others: Vec<u32> = (0..desk.count).filter(|controller| !own.contains(controller)).collect();
        for _ in 0..self.random.place(4) {
            let Some(controller) = others.get(self.random.place(others.len().max(1))) else {
                return;
            };
            if self.random.percent(60) {
                let power = desk.look(*controller).expect("a look at a controller of the desk");
                let _ = desk.claim(*controller, power);
            } else {
                let part = self.random.between(0, desk.held[*controller as usize]);
                let _ = desk.hand_back(*controller, part);
            }
        }
        if self.random.percent(10) {
            self.change(desk, night, disturbing);
        }
        if disturbing && self.random.percent(8) && !night.is_empty() {
            let place = self.random.place(night.len());
            let running = &mut night[place];
            let power = self.random.pick(&[1, running.runner.size, running.need]);
            let controller = running.runner.controller;
            let _ = if self.random.percent(50) { desk.claim(controller, power) } else { desk.hand_back(controller, power) };
            running.undisturbed &= running.follower.is_over();
        }
    }

    /// New shares: the runners keep what they need or more, where the night is not a disturbed one.
    fn change(&mut self, desk: &mut Desk, night: &mut [Running], disturbing: bool) {
        let count = desk.count as usize;
        let need =
            |i: usize| night.iter().filter(|running| running.runner.controller as usize == i).map(|running| running.need).max();
        let mut assured: Vec<u32> = (0..count).map(|i| need(i).unwrap_or(0)).collect();
        for share in &mut assured {
            *share += self.random.pick(&[0, 0, 0, 0, 0, 1, 10, 300]);
        }
        if disturbing && self.random.percent(50) {
            let place = self.random.place(count);
            assured[place] /= 2;
        }
        let reserves: u32 = desk.held.iter().zip(&assured).map(|(held, share)| held.max(share)).sum();
        let limit = (reserves + self.random.pick(&[0, 0, 0, 1, 500])).clamp(1, MOST_POWER);
        if desk.change(limit, &assured, &vec![limit; count]).is_ok() {
            self.counts.changes += 1;
            for running in night {
                let kept = desk.assured[running.runner.controller as usize] >= running.need;
                running.undisturbed &= kept || running.follower.is_over();
            }
        }
    }

    // ---- faults

    /// Starts with a fault of a sheet, or with a wrong controller, module size, share, holding or card, some with two of them.
    pub fn refused_starts(&mut self) {
        let (mut sheet, mut card, need) = self.sheet_and_card();
        let modules = reference::reading::read(&sheet).expect("it reads").modules as u32;
        let (mut controller, mut size, mut desk) = (0, need / modules, self.desk_for(&[need]));
        for _ in 0..self.random.pick(&[1, 1, 2]) {
            match self.random.place(6) {
                0 => {
                    let check = self.random.pick(&sheets::CHECKS);
                    let parts = sheets::good(&mut self.random);
                    sheet = sheets::damaged(&mut self.random, parts, &[check]);
                }
                1 => controller = self.random.pick(&[desk.count, 7, 8, u32::MAX]),
                2 => size = self.random.pick(&[0, 10_001, u32::MAX]),
                3 => desk.assured[0] = desk.assured[0].saturating_sub(self.random.pick(&[1, 1, 10])),
                4 => {
                    let _ = desk.claim(0, self.random.pick(&[1, need]));
                }
                _ => card.truncate(self.random.place(card.len().max(1))),
            }
        }
        self.start(&sheet, &card, &desk, controller, size);
    }

    /// A start with a card that has this fault.
    pub fn spoilt_card(&mut self, fault: CardFault) {
        let (sheet, mut card, need) = self.sheet_and_card();
        let said = reference::reading::read(&sheet).expect("it reads");
        self.spoil_card(&mut card, said.jobs.len(), said.modules, fault);
        let desk = self.desk_for(&[need]);
        let accepted = self.start(&sheet, &card, &desk, 0, need / said.modules as u32).is_some();
        self.counts.spoilt_cards[fault as usize][usize::from(accepted)] += 1;
    }

    fn spoil_card(&mut self, card: &mut Vec<u8>, n: usize, modules: usize, fault: CardFault) {
        let random = &mut self.random;
        let (row, trailer) = (12 * random.place(n.max(1)), 13 * n);
        let add = |card: &mut Vec<u8>, place: usize, more: i16| {
            if let Some(bytes) = card.get_mut(place..place + 2) {
                let figure = i16::from_le_bytes([bytes[0], bytes[1]]).wrapping_add(more);
                bytes.copy_from_slice(&figure.to_le_bytes());
            }
        };
        let more = random.pick(&[-30, -2, -1, 1, 2, 30, 256]);
        match fault {
            CardFault::Length if random.percent(50) => card.push(random.pick(&[0, 1])),
            CardFault::Length => card.truncate(random.place(card.len())),
            CardFault::TrailerOffset => add(card, trailer + random.pick(&[0, 2]), more),
            CardFault::TrailerEnd => add(card, trailer + 4, more),
            CardFault::TrailerCount => add(card, trailer + 6, more),
            _ if n == 0 => {}
            CardFault::RowStart => add(card, row, more),
            CardFault::RowEnd => add(card, row + 2, more),
            CardFault::RowMoved => {
                add(card, row, more);
                add(card, row + 2, more);
                let end = (0..n).map(|j| u16::from_le_bytes([card[12 * j + 2], card[12 * j + 3]])).max().unwrap_or(0);
                card[trailer + 4..trailer + 6].copy_from_slice(&end.to_le_bytes());
            }
            CardFault::RowModules => {
                let inside = random.place(modules);
                let module = random.pick(&[0, inside, modules, 63]).min(63);
                card[row + 4 + module / 8] ^= 1 << (module % 8);
                if random.percent(50) {
                    let module = random.place(modules);
                    card[row + 4 + module / 8] ^= 1 << (module % 8);
                }
            }
            CardFault::Order => {
                let (place, other) = (12 * n + random.place(n), 12 * n + random.place(n));
                match random.place(3) {
                    0 => card.swap(place, other),
                    1 => card[place] = card[other],
                    _ => card[place] = random.pick(&[n as u8, 20, 255]),
                }
            }
        }
    }

    /// A step of the runner with a fault.
    fn spoilt_runner(&mut self, runner: Runner, desk: Desk) {
        let fault = self.random.pick(&RUNNER_FAULTS);
        let mut spoilt = runner;
        let random = &mut self.random;
        let said = reference::reading::read(&runner.sheet[..runner.sheet_len]).expect("a kept sheet reads");
        match fault {
            RunnerFault::Controller => spoilt.controller = random.pick(&[0, 1, 7, 8, 9, u32::MAX]),
            RunnerFault::Size => {
                let most = MOST_POWER / said.modules as u32;
                spoilt.size = random.pick(&[0, 1, most, most + 1, 10_000, 10_001, u32::MAX]);
            }
            RunnerFault::Minute => {
                let far = random.between(1, 400);
                spoilt.minute = random.pick(&[0, runner.minute.wrapping_sub(1), runner.minute + 1, far, 65_536, u32::MAX]);
            }
            RunnerFault::SheetLength => {
                let length = runner.sheet_len;
                spoilt.sheet_len = random.pick(&[0, 9, length - 1, length + 1, LONGEST_SHEET, LONGEST_SHEET + 1, usize::MAX]);
            }
            RunnerFault::SheetByte => spoilt.sheet[random.place(runner.sheet_len)] ^= 1 << random.place(8),
            RunnerFault::BehindSheet => {
                let place = runner.sheet_len + random.place(LONGEST_SHEET - runner.sheet_len + 1);
                if let Some(byte) = spoilt.sheet.get_mut(place) {
                    *byte = random.pick(&[1, 255]);
                }
            }
            RunnerFault::CardLength => {
                let length = runner.card_len;
                spoilt.card_len = random.pick(&[0, 7, length - 1, length + 1, LONGEST_CARD, LONGEST_CARD + 1, usize::MAX]);
            }
            RunnerFault::CardByte => {
                let mut card = runner.card[..runner.card_len].to_vec();
                let fault = self.random.pick(&CARD_FAULTS[1..]);
                self.spoil_card(&mut card, said.jobs.len(), said.modules, fault);
                spoilt.card[..card.len()].copy_from_slice(&card);
            }
            RunnerFault::BehindCard => {
                let place = runner.card_len + random.place(LONGEST_CARD - runner.card_len + 1);
                if let Some(byte) = spoilt.card.get_mut(place) {
                    *byte = random.pick(&[1, 255]);
                }
            }
        }
        let refused = self.step_of_any(spoilt, desk) == 14;
        self.counts.spoilt_runners[fault as usize][usize::from(!refused)] += 1;
    }

    /// How many steps were compared.
    pub fn steps(&self) -> usize {
        self.counts.steps.iter().sum()
    }
}

/// The card that planning gives.
pub(super) fn planned(sheet: &Sheet) -> Vec<u8> {
    let mut card = vec![0; card_length(sheet.jobs.len())];
    plan(&sheet.bytes(), &mut card, &mut [0; 4096]).expect("a good sheet is planned");
    card
}

/// The card of these rows and this order.
fn card(rows: &[(u32, u32, u64)], order: &[usize]) -> Vec<u8> {
    let mut bytes = Vec::new();
    for (start, end, modules) in rows {
        bytes.extend((*start as u16).to_le_bytes());
        bytes.extend((*end as u16).to_le_bytes());
        bytes.extend(modules.to_le_bytes());
    }
    bytes.extend(order.iter().map(|job| *job as u8));
    let end = rows.iter().map(|row| row.1).max().unwrap_or(0);
    bytes.extend((12 * rows.len() as u32).to_le_bytes());
    bytes.extend((end as u16).to_le_bytes());
    bytes.extend((rows.len() as u16).to_le_bytes());
    bytes
}
