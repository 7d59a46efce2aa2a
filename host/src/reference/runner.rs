//! The plan runner: what a start tests, the calls of a minute, and which runners an accepted start and later steps can leave.
use super::desk;
use super::planning::order_checks;
use super::reading::{number, read, Sheet};
use crate::{Desk, Runner, LONGEST_CARD, LONGEST_SHEET, MOST_POWER};

/// A job's row on a card.
struct Row {
    start: u32,
    end: u32,
    modules: Vec<usize>,
}

/// What a job claims and hands back, and when.
#[derive(Clone, Debug)]
struct Call {
    claimed: u32,
    handed_back: u32,
    power: u32,
}

/// A plan that is being followed. It keeps the calls and the minute; sheet and card only to be shown.
#[derive(Clone, Debug)]
pub struct Follower {
    sheet: Vec<u8>,
    card: Vec<u8>,
    calls: Vec<Call>,
    controller: u32,
    size: u32,
    minute: u32,
}

impl Follower {
    /// A start: planning's checks without 10, then 14, 24, 25 and 26.
    pub fn start(sheet: &[u8], card: &[u8], desk: &Desk, controller: u32, size: u32) -> Result<Follower, u32> {
        let said = read(sheet)?;
        order_checks(&said)?;
        if desk::not_of_desk(desk, controller) {
            return Err(14);
        }
        if size == 0 || size > 10_000 {
            return Err(24);
        }
        let own = controller as usize;
        if u64::from(desk.assured[own]) < said.modules as u64 * u64::from(size) || desk.held[own] > 0 {
            return Err(25);
        }
        let rows = rows_that_fit(&said, card).ok_or(26u32)?;
        let call = |row: &Row| Call {
            claimed: row.start,
            handed_back: row.end + said.changeover,
            power: row.modules.len() as u32 * size,
        };
        let calls = rows.iter().map(call).collect();
        Ok(Follower { sheet: sheet.to_vec(), card: card.to_vec(), calls, controller, size, minute: 0 })
    }

    /// How many calls fall due in its minute.
    pub fn due(&self) -> usize {
        let due = |call: &Call| usize::from(call.claimed == self.minute) + usize::from(call.handed_back == self.minute);
        self.calls.iter().map(due).sum()
    }

    /// Whether the last hand-back is behind it, or there was none.
    pub fn is_over(&self) -> bool {
        self.calls.iter().all(|call| call.handed_back < self.minute)
    }

    /// A step: the desk as it then is, or the number of the first check that fails; then the minute stays.
    pub fn step(&mut self, desk: &Desk) -> Result<Desk, u32> {
        if desk::not_of_desk(desk, self.controller) {
            return Err(14);
        }
        let mut now = *desk;
        for call in self.calls.iter().filter(|call| call.handed_back == self.minute) {
            now = desk::hand_back(&now, self.controller, call.power)?;
        }
        for call in self.calls.iter().filter(|call| call.claimed == self.minute) {
            now = desk::claim(&now, self.controller, call.power)?;
        }
        if !self.is_over() {
            self.minute += 1;
        }
        Ok(now)
    }

    /// As the library keeps it.
    pub fn shown(&self) -> Runner {
        let mut runner = Runner { controller: self.controller, size: self.size, minute: self.minute, ..Runner::NONE };
        runner.sheet_len = self.sheet.len();
        runner.sheet[..self.sheet.len()].copy_from_slice(&self.sheet);
        runner.card_len = self.card.len();
        runner.card[..self.card.len()].copy_from_slice(&self.card);
        runner
    }

    /// The follower that the library keeps as this runner, where an accepted start and later steps can leave it: it is started on the desk
    /// that assures its controller of all that a feeder can have, and stepped until it is the runner or all is over.
    pub fn left_as(runner: &Runner) -> Option<Follower> {
        if runner.controller > 7 || runner.sheet_len > LONGEST_SHEET || runner.card_len > LONGEST_CARD {
            return None;
        }
        let mut assured = [0; 8];
        assured[runner.controller as usize] = MOST_POWER;
        let mut desk = desk::open(MOST_POWER, &assured, &[MOST_POWER; 8]).expect("the most generous desk opens");
        let (sheet, card) = (&runner.sheet[..runner.sheet_len], &runner.card[..runner.card_len]);
        let mut follower = Follower::start(sheet, card, &desk, runner.controller, runner.size).ok()?;
        while follower.minute < runner.minute && !follower.is_over() {
            desk = follower.step(&desk).expect("every call is granted there");
        }
        (follower.shown() == *runner).then_some(follower)
    }
}

/// The rows of a card for the sheet, none where a test of 26 fails.
fn rows_that_fit(sheet: &Sheet, card: &[u8]) -> Option<Vec<Row>> {
    let n = sheet.jobs.len();
    if card.len() != 13 * n + 8 {
        return None;
    }
    let (rows, behind) = card.split_at(12 * n);
    let (order, trailer) = behind.split_at(n);
    let rows: Vec<Row> = rows.chunks(12).map(row).collect();
    let order: Vec<usize> = order.iter().map(|job| usize::from(*job)).collect();
    let end = rows.iter().map(|row| row.end).max().unwrap_or(0);
    let figures = [number(&trailer[0..4]), number(&trailer[4..6]), number(&trailer[6..8])];
    let fits = figures == [12 * n as u64, u64::from(end), n as u64]
        && is_valid(sheet, &rows)
        && names_each_once(&order, n)
        && order.windows(2).all(|pair| rows[pair[0]].start <= rows[pair[1]].start);
    fits.then_some(rows)
}

fn row(bytes: &[u8]) -> Row {
    let set = number(&bytes[4..12]);
    let modules = (0..64).filter(|m| set >> m & 1 == 1).collect();
    Row { start: number(&bytes[0..2]) as u32, end: number(&bytes[2..4]) as u32, modules }
}

fn names_each_once(order: &[usize], n: usize) -> bool {
    let mut sorted = order.to_vec();
    sorted.sort();
    sorted == (0..n).collect::<Vec<usize>>()
}

/// Whether the rows are a valid plan: each job with its own minutes and as many modules of the cabinet as it needs, not before its arrival
/// and the ends of its earlier jobs, and each module with one job at a time and a rest before its next.
fn is_valid(sheet: &Sheet, rows: &[Row]) -> bool {
    let alone = sheet.jobs.iter().zip(rows).all(|(job, row)| {
        row.end == row.start + job.minutes
            && row.start >= job.arrival
            && row.modules.len() == job.modules
            && row.modules.iter().all(|m| *m < sheet.modules)
            && job.earlier.iter().all(|earlier| rows[*earlier].end <= row.start)
    });
    let rests = |module: usize| {
        let mut uses: Vec<(u32, u32)> =
            rows.iter().filter(|row| row.modules.contains(&module)).map(|row| (row.start, row.end)).collect();
        uses.sort();
        uses.windows(2).all(|pair| pair[0].1 + sheet.changeover <= pair[1].0)
    };
    alone && (0..sheet.modules).all(rests)
}
