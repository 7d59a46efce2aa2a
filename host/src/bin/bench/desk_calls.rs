//! The desk's calls and the plan runner's, in nanoseconds.
use crate::clock::nanoseconds;
use depot_host::raw_sheet::Sheet;
use depot_host::{card_length, plan, Desk, Job, Runner, MOST_JOBS, MOST_POWER};

pub fn measure() {
    let desk = Desk::open(MOST_POWER, &[50_000; 8], &[MOST_POWER; 8]).expect("a desk of eight controllers");
    println!("desk of 8 controllers, nanoseconds a call");
    let mut claimed = desk;
    let claims = nanoseconds(|i| claimed.claim(i % 8, 1).is_ok() | claimed.hand_back(i % 8, 1).is_ok()) / 2.0;
    println!("  claim, hand-back {claims:>7.1}");
    println!("  look             {:>7.1}", nanoseconds(|i| desk.look(i % 8).is_ok()));
    let mut refused = desk;
    println!("  claim refused    {:>7.1}", nanoseconds(|i| refused.claim(i % 8, MOST_POWER).is_ok()));
    let opening = nanoseconds(|i| Desk::open(MOST_POWER, &[i % 50_000; 8], &[MOST_POWER; 8]).is_ok());
    println!("  opening          {opening:>7.1}");
    let mut changed = desk;
    let change = nanoseconds(|i| changed.change(MOST_POWER, &[i % 50_000; 8], &[MOST_POWER; 8]).is_ok());
    println!("  change           {change:>7.1}");
    let jobs = (0..MOST_JOBS).map(|j| Job { modules: 1 + j as u8 % 3, minutes: 10 + j as u16, ..Job::default() });
    runner(&Sheet::of(64, jobs.collect()).bytes(), desk);
}

/// A start, a step without a call and one with twenty claims: all jobs begin at minute 0.
fn runner(sheet: &[u8], desk: Desk) {
    let mut card = [0; card_length(MOST_JOBS)];
    plan(sheet, &mut card, &mut []).expect("the sheet is planned");
    let started = || Runner::start(sheet, &card, &desk, 0, 300);
    let first = started().expect("the runner starts");
    println!("plan runner of {MOST_JOBS} jobs on that desk");
    println!("  start            {:>7.1}", nanoseconds(|_| started().is_ok()));
    let step = |runner: Runner| {
        nanoseconds(|_| {
            let (mut runner, mut desk) = (runner, desk);
            runner.step(&mut desk).is_ok()
        })
    };
    println!("  step, 20 claims  {:>7.1}", step(first));
    println!("  step, no call    {:>7.1}", step(Runner { minute: 1, ..first }));
}
