//! The count of the job sets on many sheets, on shapes whose count is known, and how long it takes.
use depot_host::compare::sets::{marked, random_marks, Sets};
use depot_host::compare::sheets;
use depot_host::random::Random;
use depot_host::{sets, Refusal, MOST_JOBS};
use std::time::{Duration, Instant};

const SEED: u64 = 120_012;
const GOOD: usize = 20_000;
const DAMAGED: usize = 500;

#[test]
fn counts_are_those_of_every_set() {
    let mut counted = Sets::new(SEED);
    counted.good(12, GOOD);
    sheets::CHECKS.iter().for_each(|check| counted.damaged(*check, DAMAGED));
    println!("{} sheets, answers 0 to 19: {:?}", counted.compared, counted.answers);
    assert!(counted.answers[0] >= GOOD);
    let often = |number: usize| counted.answers[number] >= DAMAGED / 2;
    assert!((1..=9).chain([19]).all(often), "{:?}", counted.answers);
}

/// So many jobs with the earlier jobs that a rule gives each.
fn of(n: usize, rule: impl Fn(usize) -> u32) -> Result<u32, Refusal> {
    sets(&marked(&(0..n).map(rule).collect::<Vec<_>>()))
}

#[test]
fn shapes_of_twenty_jobs() {
    let n = MOST_JOBS;
    for n in 0..=n {
        assert_eq!(of(n, |j| (1 << j) >> 1), Ok(n as u32 + 1), "a chain of {n}");
        assert_eq!(of(n, |j| (1 << j) - 1), Ok(n as u32 + 1), "a chain of {n} with all its marks");
        assert_eq!(of(n, |_| 0), Ok(1 << n), "{n} without marks");
    }
    assert_eq!(of(n, |j| if j % 2 == 1 { 1 << (j - 1) } else { 0 }), Ok(3u32.pow(10)), "ten chains of two");
    assert_eq!(of(n, |j| if j % 4 > 0 { 1 << (j - 1) } else { 0 }), Ok(5u32.pow(5)), "five chains of four");
    assert_eq!(of(n, |j| if j > 0 { 1 } else { 0 }), Ok((1 << 19) + 1), "all wait for the first");
    assert_eq!(of(n, |j| if j == 19 { (1 << 19) - 1 } else { 0 }), Ok((1 << 19) + 1), "the last waits for all");
    assert_eq!(of(n, |j| if j >= 10 { (1 << 10) - 1 } else { 0 }), Ok(1023 + 1024), "ten wait for ten");
    let fence = |j: usize| if j % 2 == 1 { (1 << (j - 1)) | (if j + 1 < n { 1 << (j + 1) } else { 0 }) } else { 0 };
    assert_eq!(of(n, fence), Ok(17_711), "a fence");
}

/// How long the count takes: the least of three times, so that what else runs does not count.
fn time(sheet: &[u8]) -> Duration {
    let once = |_| {
        let start = Instant::now();
        assert!(sets(sheet).is_ok());
        start.elapsed()
    };
    (0..3).map(once).min().expect("three times")
}

/// The longest of many sheets of twenty jobs, and chains of two, on which the split goes on longest of all shapes known.
#[test]
fn no_sheet_takes_long() {
    const LONG: Duration = Duration::from_millis(1);
    let mut random = Random::new(SEED);
    let mut longest = (Duration::ZERO, Vec::new());
    for round in 0..100_000 {
        let percent = [1, 2, 3, 5, 8, 12, 20, 40][round % 8];
        let sheet = random_marks(&mut random, MOST_JOBS, percent);
        let took = time(&sheet);
        if took > longest.0 {
            longest = (took, sheet);
        }
    }
    println!("longest of 100,000 sheets of 20 jobs: {:?}, {:?} sets", longest.0, sets(&longest.1));
    let pairs: Vec<u32> = (0..MOST_JOBS).map(|j| if j % 2 == 1 { 1 << (j - 1) } else { 0 }).collect();
    let pairs = time(&marked(&pairs));
    println!("ten chains of two: {pairs:?}");
    assert!(longest.0 < LONG && pairs < LONG, "{longest:?}, {pairs:?}");
}

/// A count without the empty set.
fn without_the_empty_set(sheet: &[u8]) -> Result<u32, Refusal> {
    sets(sheet).map(|count| count - 1)
}

#[test]
#[should_panic(expected = "assertion `left == right` failed: sheet")]
fn a_count_without_the_empty_set_is_found_out() {
    Sets::of(without_the_empty_set, SEED).good(12, 10);
}
