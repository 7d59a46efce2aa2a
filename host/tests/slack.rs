//! Slack on many sheets, on sheets whose slack is known, and beside the card of twenty jobs.
use depot_host::compare::sheets;
use depot_host::compare::slack::{expected, Slack};
use depot_host::ffi::Slacks;
use depot_host::raw_sheet::Sheet;
use depot_host::{card_length, plan, slack, Card, Job, JobSlack, MOST_JOBS};

const SEED: u64 = 100_010;
const GOOD: usize = 20_000;
const DAMAGED: usize = 500;

#[test]
fn slacks_are_those_of_every_chain() {
    let mut compared = Slack::new(SEED);
    compared.good(7, GOOD);
    sheets::CHECKS.iter().for_each(|check| compared.damaged(*check, DAMAGED));
    println!("{} sheets, answers 0 to 19: {:?}", compared.compared, compared.answers);
    println!("{} late, {} below 0, {} marks implied", compared.late, compared.below_0, compared.implied);
    assert!(compared.answers[0] >= GOOD);
    let often = |number: usize| compared.answers[number] >= DAMAGED / 2;
    assert!((1..=9).chain([19]).all(often), "{:?}", compared.answers);
    assert!(compared.late >= 10_000 && compared.below_0 >= 10_000 && compared.implied >= 10_000);
}

fn job(minutes: u16, earlier: u32, departure: u16) -> Job {
    Job { modules: 1, minutes, earlier, departure, ..Job::default() }
}

fn entry(latest_start: i32, slack: i32, implied: u32) -> JobSlack {
    JobSlack { latest_start, slack, implied }
}

#[test]
fn sheets_whose_slack_is_known() {
    let known = |jobs: Vec<Job>| slack(&Sheet::of(2, jobs).bytes(), &mut []);
    let e1 = vec![job(10, 0, 30), Job { modules: 2, ..job(20, 0, 25) }, job(10, 0, 30)];
    assert_eq!(known(e1), Ok(vec![entry(20, 20, 0), entry(5, -5, 0), entry(20, 20, 0)]));
    assert_eq!(known(vec![]), Ok(vec![]));
    let chain = vec![job(10, 0, 100), job(20, 1, 100), job(30, 3, 70)];
    assert_eq!(known(chain), Ok(vec![entry(10, 10, 0), entry(20, 10, 0), entry(40, 10, 1)]));
    let hopeless = vec![job(1440, 0, 0), job(1440, 1, 0)];
    assert_eq!(known(hopeless), Ok(vec![entry(-2880, -2880, 0), entry(-1440, -2880, 0)]));
}

/// A chain of twenty jobs of a day each, each of which waits for all before it, and all depart at minute 0.
#[test]
fn the_longest_chain() {
    let jobs = (0..MOST_JOBS).map(|j| job(1440, (1 << j) - 1, 0)).collect();
    let entries = slack(&Sheet::of(1, jobs).bytes(), &mut []).expect("the sheet is planned");
    assert_eq!(entries[0], entry(-28_800, -28_800, 0));
    for (j, one) in entries.iter().enumerate() {
        let left = (MOST_JOBS - j) as i32;
        let last_mark = if j > 0 { 1 << (j - 1) } else { 0 };
        assert_eq!(*one, entry(-1440 * left, -28_800, (1 << j) - 1 - last_mark));
    }
}

/// The slack is the latest start less the start on the card, for twenty jobs too.
#[test]
fn beside_the_card() {
    let jobs: Vec<Job> = (0..MOST_JOBS).map(|j| job(10 + j as u16, (1 << j) >> 4, 60 + 7 * j as u16)).collect();
    let sheet = Sheet::of(3, jobs).bytes();
    let mut work = vec![0; 1 << 20];
    let mut bytes = [0; card_length(MOST_JOBS)];
    plan(&sheet, &mut bytes, &mut work).expect("the sheet is planned");
    let card = Card::of(&bytes).expect("planning writes a card");
    let entries = slack(&sheet, &mut work).expect("the sheet is planned");
    for (row, one) in card.rows.iter().zip(entries) {
        assert_eq!(one.slack, one.latest_start - i32::from(row.start));
    }
}

/// Wrong calls, which the comparison must find out: each entry's slack with its sign turned, and no mark listed.
fn turned(sheet: &[u8], work: &mut [u8]) -> Slacks {
    work.fill(0);
    let mut answer = expected(sheet);
    answer.jobs.iter_mut().for_each(|job| job.slack = -job.slack);
    answer
}

fn no_mark(sheet: &[u8], work: &mut [u8]) -> Slacks {
    work.fill(0);
    let mut answer = expected(sheet);
    answer.jobs.iter_mut().for_each(|job| job.implied = 0);
    answer
}

#[test]
#[should_panic(expected = "assertion `left == right` failed: sheet")]
fn a_turned_sign_is_found_out() {
    Slack::of(turned, SEED).good(7, 20);
}

#[test]
#[should_panic(expected = "assertion `left == right` failed: sheet")]
fn a_missing_mark_is_found_out() {
    Slack::of(no_mark, SEED).good(7, 200);
}
