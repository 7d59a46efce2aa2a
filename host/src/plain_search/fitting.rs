//! The bound by lanes, fitted to a part-plan: a table of the jobs that are left, none of which starts before its release, with values that
//! are handed from part-plan to part-plan.
use super::part::{Free, Part};
use super::tables::{jobs_of, Starts, Tables};
use crate::MOST_JOBS;

const CELLS: usize = 6144;
/// The largest value of a job, and how many shares a unit of it has.
const MOST_VALUE: u16 = 1600;
const SHARES: u16 = 16;
/// The first share of the job that keeps its modules longest, the largest share, and the largest of all below which they are doubled.
const FIRST_SHARE: u32 = 19_200;
const MOST_SHARE: u64 = 25_600;
const LOW_SHARE: u16 = 9_600;
/// How fast shares move, and how often at a part-plan.
const SPEED: u64 = 24;
const TURNS: usize = 2;
/// The fewest jobs for which a table is made.
const FEWEST: usize = 5;
/// Whether tables pay: the largest credit, how many tables the first one pays, what a part-plan costs beside its table, the most that is
/// counted, over how many part-plans the mean goes, and how many tables there are for each that is made where the credit is used up.
const MOST_CREDIT: u16 = 4_096;
const FIRST_TABLES: u16 = 4;
const PART_PLAN: u16 = 3;
const MOST_SPENT: u16 = 8_000;
const MEAN: u16 = 8;
const PAUSE: u16 = 64;

/// What is kept for one number of jobs: the credit; how many tables were left out; what was spent behind the part-plan of so many jobs that
/// the search has entered and not left; and the mean of that, `MEAN` times.
#[derive(Clone, Copy, Default)]
struct Account {
    credit: u16,
    left_out: u16,
    spent: u16,
    behind: u16,
}

/// Rows of the table one behind another, the share of each job, an account for each number of jobs and one more, to which the part-plan of
/// all jobs is charged, and the fewest jobs of a part-plan that is entered.
pub struct Slate {
    cells: Box<[u16; CELLS]>,
    shares: [u16; MOST_JOBS],
    accounts: [Account; MOST_JOBS + 2],
    entered: usize,
}

/// The jobs that are left by falling release, and how the table stands: its columns, the minutes of a step, and from when up to when lanes
/// serve.
struct Frame<'a> {
    tables: &'a Tables,
    part: &'a Part,
    free: &'a Free,
    order: Vec<usize>,
    release: [u16; MOST_JOBS],
    columns: usize,
    step: u16,
    close: u16,
}

impl Frame<'_> {
    fn of<'a>(tables: &'a Tables, part: &'a Part, starts: &Starts, free: &'a Free, close: u16) -> Frame<'a> {
        let mut release = [free.minute; MOST_JOBS];
        jobs_of(starts.ready).for_each(|j| release[j] = starts.at[j]);
        let mut order: Vec<usize> = jobs_of(part.unplaced).collect();
        order.sort_by_key(|j| std::cmp::Reverse(release[*j]));
        let span = usize::from(close - free.minute);
        let columns = (CELLS / (order.len() + 1)).min(span + 1);
        Frame { tables, part, free, order, release, columns, step: (span / columns) as u16 + 1, close }
    }

    /// The column of the minutes from this one up to the closing minute.
    fn column(&self, minute: u16) -> usize {
        (self.close.saturating_sub(minute) / self.step).into()
    }

    /// How many steps job j keeps a module, and how many there are from its release on.
    fn steps(&self, j: usize) -> (usize, usize) {
        ((self.tables.counted[j] / self.step).into(), self.column(self.release[j]))
    }

    /// The minutes at which lanes open, and how many.
    fn openings(&self) -> impl Iterator<Item = (u16, u16)> + '_ {
        std::iter::once((self.free.minute, self.free.modules)).chain(self.part.running(self.free.gone))
    }
}

impl Slate {
    pub fn new(tables: &Tables) -> Slate {
        let longest = u32::from(tables.counted.iter().copied().fold(1, u16::max));
        let shares = tables.counted.map(|kept| (u32::from(kept) * FIRST_SHARE / longest) as u16);
        let accounts = std::array::from_fn(|jobs| Account { credit: FIRST_TABLES * jobs as u16, ..Account::default() });
        Slate { cells: Box::new([0; CELLS]), shares, accounts, entered: MOST_JOBS + 1 }
    }

    /// Whether the jobs that are left have more value than the lanes can serve. The shares are turned towards values that tell.
    pub fn overfull(&mut self, tables: &Tables, part: &Part, starts: &Starts, free: &Free, close: u16) -> bool {
        if close < free.minute {
            return false;
        }
        let count = part.unplaced.count_ones() as usize;
        if count < FEWEST {
            self.spend(FEWEST, PART_PLAN);
            return false;
        }
        self.enter(count);
        if !self.pays(count) {
            return false;
        }
        let over = self.shows(&Frame::of(tables, part, starts, free, close));
        self.note(count, over);
        over
    }

    /// Whether a table for so many jobs is to be made: where those before paid, and now and then.
    fn pays(&mut self, count: usize) -> bool {
        let account = &mut self.accounts[count];
        if account.credit > 0 {
            return true;
        }
        account.left_out = (account.left_out + 1) % PAUSE;
        account.left_out == 0
    }

    /// Charges an amount to the part-plan of so many jobs.
    fn spend(&mut self, count: usize, amount: u16) {
        let account = &mut self.accounts[count];
        account.spent = (account.spent + amount).min(MOST_SPENT);
    }

    /// Enters a part-plan of so many jobs, and leaves those that have as many or fewer.
    fn enter(&mut self, count: usize) {
        for left in self.entered..=count {
            let account = &mut self.accounts[left];
            let spent = std::mem::take(&mut account.spent);
            account.behind = if account.behind == 0 { MEAN * spent } else { account.behind - account.behind / MEAN + spent };
            self.spend(left + 1, spent);
        }
        self.spend(count + 1, PART_PLAN);
        self.entered = count;
    }

    /// Notes whether a table of so many jobs cut off the part-plan that was entered.
    fn note(&mut self, count: usize, cut: bool) {
        let cost = if cut { count / 2 } else { count } as u16;
        self.spend(count + 1, cost);
        let account = &mut self.accounts[count];
        let gained = if cut { account.credit + account.behind / MEAN } else { account.credit };
        account.credit = gained.saturating_sub(cost).min(MOST_CREDIT);
        self.entered = count + usize::from(cut);
    }

    fn shows(&mut self, frame: &Frame) -> bool {
        for turn in 0..=TURNS {
            let values = self.values(frame);
            self.fill(frame, &values);
            let worth: u32 = frame.order.iter().map(|j| u32::from(frame.tables.need[*j]) * u32::from(values[*j])).sum();
            let served = self.served(frame);
            if served < worth {
                return true;
            }
            if turn < TURNS {
                self.turn(frame, served - worth + 1);
            }
        }
        false
    }

    fn values(&self, frame: &Frame) -> [u16; MOST_JOBS] {
        let mut values = [0; MOST_JOBS];
        for j in frame.order.iter().filter(|j| frame.tables.counted[**j] >= frame.step) {
            values[*j] = (self.shares[*j] / SHARES).min(MOST_VALUE);
        }
        values
    }

    /// The table: a row for each job, the first one all 0.
    fn fill(&mut self, frame: &Frame, values: &[u16; MOST_JOBS]) {
        let columns = frame.columns;
        self.cells[..columns].fill(0);
        for (row, j) in frame.order.iter().enumerate() {
            let (lasts, room) = frame.steps(*j);
            let (before, row) = self.cells[row * columns..][..2 * columns].split_at_mut(columns);
            if room < lasts {
                row.copy_from_slice(before);
                continue;
            }
            let value = values[*j];
            row[..lasts].copy_from_slice(&before[..lasts]);
            for ((cell, upper), lower) in row[lasts..=room].iter_mut().zip(&before[lasts..=room]).zip(before.iter()) {
                *cell = (*upper).max(value + lower);
            }
            let top = value + before[room - lasts];
            for (cell, upper) in row[room + 1..].iter_mut().zip(&before[room + 1..]) {
                *cell = top.max(*upper);
            }
        }
    }

    fn cell(&self, frame: &Frame, row: usize, column: usize) -> u16 {
        self.cells[row * frame.columns + column]
    }

    /// What the lanes serve, one on each module from the minute on at which it is free.
    fn served(&self, frame: &Frame) -> u32 {
        let last = frame.order.len();
        let reach = |(minute, lanes): (u16, u16)| u32::from(lanes) * u32::from(self.cell(frame, last, frame.column(minute)));
        frame.openings().map(reach).sum()
    }

    /// Moves the shares by the lanes that serve each job: those of jobs that too few serve rise, those of jobs that too many serve fall.
    fn turn(&mut self, frame: &Frame, gap: u32) {
        let lanes = self.lanes(frame);
        let apart = |j: usize| u64::from(frame.tables.need[j].abs_diff(lanes[j]));
        let squares: u64 = frame.order.iter().map(|j| apart(*j) * apart(*j)).sum();
        if squares == 0 {
            return;
        }
        for j in &frame.order {
            let by = u64::from(gap) * apart(*j) * SPEED / squares;
            let share = u64::from(self.shares[*j]);
            let moved = if lanes[*j] < frame.tables.need[*j] { (share + by).min(MOST_SHARE) } else { share.saturating_sub(by) };
            self.shares[*j] = moved as u16;
        }
        if frame.order.iter().all(|j| self.shares[*j] < LOW_SHARE) {
            frame.order.iter().for_each(|j| self.shares[*j] *= 2);
        }
    }

    /// How many lanes serve each job: the rows tell, from the last to the first, which jobs a lane serves by which it reaches most.
    fn lanes(&self, frame: &Frame) -> [u16; MOST_JOBS] {
        let mut lanes = [0; MOST_JOBS];
        for (minute, more) in frame.openings() {
            let mut x = frame.column(minute);
            for (row, j) in frame.order.iter().enumerate().rev() {
                if self.cell(frame, row, x) != self.cell(frame, row + 1, x) {
                    let (lasts, room) = frame.steps(*j);
                    lanes[*j] += more;
                    x = x.min(room) - lasts;
                }
            }
        }
        lanes
    }
}
