//! Random job sheets, good ones and damaged ones.
use crate::random::Random;
use crate::raw_sheet::{mark_earlier, Sheet};
use crate::Job;

/// The checks for which a sheet can have a fault: those of reading, and 8 and 9.
pub const CHECKS: [u32; 10] = [1, 2, 3, 19, 4, 5, 6, 7, 8, 9];

/// A sheet that reads, of up to 7 jobs: no job is too wide and none waits for itself.
pub fn good(random: &mut Random) -> Sheet {
    let n = random.place(8);
    of_size(random, n)
}

/// Such a sheet whose jobs arrive when others run: few minutes, and more than half of the jobs after minute 0.
pub fn arriving(random: &mut Random) -> Sheet {
    let mut sheet = good(random);
    let (steps, step) = random.pick(&[(1, 1), (3, 1), (10, 1), (40, 1), (8, 5)]);
    let arrivals = Arrivals { percent: 75, steps, step };
    sheet.jobs.iter_mut().for_each(|job| job.arrival = arrivals.draw(random));
    sheet.changeover = 0;
    sheet
}

/// Such a sheet whose modules rest between two jobs, with arrivals or without.
pub fn resting(random: &mut Random) -> Sheet {
    let mut sheet = if random.percent(50) { arriving(random) } else { good(random) };
    sheet.changeover = random.pick(&[1, 1, 2, 3, 5, 10, 30]);
    sheet
}

/// Such a sheet of n jobs.
pub fn of_size(random: &mut Random, n: usize) -> Sheet {
    let most = random.pick(&[1, 2, 2, 3, 4, 5, 8, 64]);
    let modules = random.between(1, most);
    let long = n < 6 && random.percent(10);
    let longest = if long { 1440 } else { random.pick(&[1, 2, 5, 12, 30]) };
    let arrivals = Arrivals::some(random);
    let mut jobs: Vec<Job> = (0..n)
        .map(|_| Job {
            label_len: random.pick(&[1, 2, 3, 8, 15, 16]),
            modules: random.between(1, modules) as u8,
            minutes: random.between(1, longest) as u16,
            earlier: 0,
            departure: random.between(0, 2880) as u16,
            arrival: arrivals.draw(random),
        })
        .collect();
    let percent = random.pick(&[0, 0, 10, 30, 60, 100]);
    mark_earlier(random, &mut jobs, percent);
    let labels: Vec<u8> = jobs.iter().flat_map(|job| label(random, job.label_len.into())).collect();
    let changeover = random.pick(&[0, 0, 0, 1, 2, 5, 30]);
    Sheet { offset: labels.len() as u32, count: n as u16, modules: modules as u16, changeover, labels, jobs }
}

/// How the jobs of a sheet arrive: so many of a hundred after minute 0, in steps, up to a last one.
struct Arrivals {
    percent: u32,
    steps: u32,
    step: u32,
}

impl Arrivals {
    fn some(random: &mut Random) -> Arrivals {
        let (steps, step) = random.pick(&[(1, 1), (3, 1), (10, 1), (40, 1), (8, 5), (1, 1440), (1440, 1)]);
        Arrivals { percent: random.pick(&[0, 60, 60, 100]), steps, step }
    }

    fn draw(&self, random: &mut Random) -> u16 {
        let late = random.percent(self.percent);
        (if late { random.between(0, self.steps) * self.step } else { 0 }) as u16
    }
}

/// A label of so many bytes, with spaces inside alone.
fn label(random: &mut Random, length: usize) -> Vec<u8> {
    let mut byte = |place: usize| {
        let edge = place == 0 || place == length - 1;
        let space = !edge && random.percent(25);
        if space {
            b' '
        } else {
            random.between(if edge { 33 } else { 32 }, 126) as u8
        }
    };
    (0..length).map(&mut byte).collect()
}

/// The sheet's bytes with a fault for each of the checks; a sheet without jobs cannot have all of them.
pub fn damaged(random: &mut Random, mut sheet: Sheet, checks: &[u32]) -> Vec<u8> {
    checks.iter().for_each(|check| put_fault(random, &mut sheet, *check));
    let mut bytes = sheet.bytes();
    if checks.contains(&1) {
        if random.percent(50) {
            bytes.truncate(random.place(10));
        } else {
            let longer = random.pick(&[571, 572, 700]) - bytes.len();
            bytes.splice(0..0, vec![b'z'; longer]);
        }
    }
    bytes
}

/// The sheet's bytes with a fault for a check, some of them with a fault for another one too.
pub fn with_fault(random: &mut Random, sheet: Sheet, check: u32) -> Vec<u8> {
    let mut checks = vec![check];
    if random.percent(40) {
        checks.push(random.pick(&CHECKS));
    }
    damaged(random, sheet, &checks)
}

/// Such bytes of a sheet of up to 7 jobs.
pub fn faulty(random: &mut Random, check: u32) -> Vec<u8> {
    let sheet = good(random);
    with_fault(random, sheet, check)
}

/// Puts a fault for a check other than 1 into the sheet's parts.
pub fn put_fault(random: &mut Random, sheet: &mut Sheet, check: u32) {
    let job = random.place(sheet.jobs.len().max(1));
    match check {
        2 => sheet.count = outside(random, 21),
        3 => sheet.modules = if random.percent(30) { 0 } else { outside(random, 65) },
        19 => sheet.changeover = outside(random, 31),
        4 => misplace(random, sheet),
        5 if !sheet.jobs.is_empty() => wrong_field(random, &mut sheet.jobs[job], sheet.count),
        6 => wrong_lengths(random, sheet, job),
        7 if !sheet.labels.is_empty() => wrong_label(random, sheet, job),
        8 if !sheet.jobs.is_empty() => {
            let too_wide = u32::from(sheet.modules) + 1;
            sheet.jobs[job].modules = random.between(too_wide.min(255), 255) as u8;
        }
        9 if !sheet.jobs.is_empty() => make_circle(random, &mut sheet.jobs),
        _ => {}
    }
}

/// The sheet with some bytes changed, no matter which.
pub fn scrambled(random: &mut Random, mut bytes: Vec<u8>) -> Vec<u8> {
    for _ in 0..random.between(1, 3) {
        let place = random.place(bytes.len());
        bytes[place] = if random.percent(50) { bytes[place] ^ (1 << random.place(8)) } else { random.word() as u8 };
    }
    bytes
}

/// A number of 16 bits from `first` on, near it or far from it.
fn outside(random: &mut Random, first: u32) -> u16 {
    let last = random.pick(&[first, first + 3, 300, 65535]);
    random.between(first, last.max(first)) as u16
}

/// The records are not where the trailer says.
fn misplace(random: &mut Random, sheet: &mut Sheet) {
    let far = random.between(1, 400);
    match random.place(5) {
        0 => sheet.offset = sheet.offset.wrapping_sub(far),
        1 => sheet.offset = sheet.offset.wrapping_add(far),
        2 => sheet.count = (sheet.count + random.between(1, 20) as u16) % 21,
        3 if !sheet.labels.is_empty() => drop(sheet.labels.pop()),
        _ => sheet.labels.push(b'x'),
    }
}

fn wrong_field(random: &mut Random, job: &mut Job, n: u16) {
    match random.place(7) {
        0 => job.label_len = 0,
        1 => job.label_len = outside(random, 17).min(255) as u8,
        2 => job.modules = 0,
        3 => job.minutes = if random.percent(30) { 0 } else { outside(random, 1441) },
        4 => job.earlier |= 1 << random.between(u32::from(n).min(31), 31),
        5 => job.departure = outside(random, 2881),
        _ => job.arrival = outside(random, 1441),
    }
}

/// The label lengths do not add up to the labels, by one of their bytes or by one of their lengths.
fn wrong_lengths(random: &mut Random, sheet: &mut Sheet, job: usize) {
    if sheet.jobs.is_empty() || random.percent(50) {
        sheet.labels.push(b'y');
        sheet.offset += 1;
    } else {
        let length = &mut sheet.jobs[job].label_len;
        *length = 1 + *length % 16;
    }
}

/// A byte that is none of a label, or a space at an edge of the job's label.
fn wrong_label(random: &mut Random, sheet: &mut Sheet, job: usize) {
    let lengths: Vec<usize> = sheet.jobs.iter().map(|job| job.label_len.into()).collect();
    let start: usize = lengths.iter().take(job).sum();
    let length = lengths.get(job).copied().unwrap_or(0);
    let edge = if random.percent(50) { start } else { start + length.saturating_sub(1) };
    if random.percent(50) && edge < sheet.labels.len() {
        sheet.labels[edge] = b' ';
    } else {
        let place = random.place(sheet.labels.len());
        sheet.labels[place] = random.pick(&[0, 10, 31, 127, 128, 255]);
    }
}

/// Each job of a random circle waits for the one before it; a circle of one is a job that waits for itself.
fn make_circle(random: &mut Random, jobs: &mut [Job]) {
    let mut circle: Vec<usize> = (0..jobs.len()).collect();
    random.shuffle(&mut circle);
    circle.truncate(1 + random.place(jobs.len()));
    let mut before = circle[circle.len() - 1];
    for job in circle {
        jobs[job].earlier |= 1 << before;
        before = job;
    }
}
