//! The least module count on many sheets: `compare/sizing.rs` says what is compared. And on larger lists against planning.
use depot_host::compare::sheets;
use depot_host::compare::sizing::Sizing;
use depot_host::families;
use depot_host::lists::List;
use depot_host::{card_length, earliest_end, plan, size, Card, Refusal, MOST_JOBS, MOST_MODULES};

const SEED: u64 = 50_005;
const GOOD: usize = 6_000;
const DAMAGED: usize = 300;

#[test]
fn the_count_is_the_first_of_all_counts_that_serves() {
    let mut sizing = Sizing::new(SEED);
    sizing.good(6, GOOD);
    sheets::CHECKS.iter().for_each(|check| sizing.damaged(*check, DAMAGED));
    sizing.short_cards(DAMAGED);
    println!("{} sheets, answers 0 to 20: {:?}, counts {:?}", sizing.compared, sizing.answers, sizing.counts);
    assert!(sizing.compared >= GOOD + 11 * DAMAGED);
    assert!(sizing.answers[0] >= GOOD / 2 && sizing.answers[20] >= GOOD / 10, "{:?}", sizing.answers);
    let often = |number: usize| sizing.answers[number] >= DAMAGED / 3;
    assert!((1..=7).chain([9, 10, 19]).all(often), "{:?}", sizing.answers);
    assert_eq!(sizing.answers[8], 0, "8 is not checked");
    assert!((1..=8).chain([30, 63, 64]).all(|count| sizing.counts[count] > 0), "{:?}", sizing.counts);
}

/// A call that counts from the sheet's own N.
fn from_the_sheet_s_own(sheet: &[u8], by: u16, card: &mut [u8], work: &mut [u8]) -> Result<u16, Refusal> {
    let modules = size(sheet, by, card, work)?;
    let own = sheet[sheet.len() - 4].into();
    Ok(modules.max(own))
}

/// One that has cleared the working memory before it finds that no count serves.
fn with_the_lent_memory(sheet: &[u8], by: u16, card: &mut [u8], work: &mut [u8]) -> Result<u16, Refusal> {
    let answer = size(sheet, by, card, work);
    if answer == Err(Refusal::NoCountServes) {
        work.fill(0);
    }
    answer
}

#[test]
#[should_panic(expected = "assertion `left == right` failed: sheet")]
fn a_call_that_counts_from_the_sheet_s_own_is_found_out() {
    Sizing::of(from_the_sheet_s_own, SEED).good(4, GOOD);
}

#[test]
#[should_panic(expected = "memory of a refused call: sheet")]
fn a_call_that_clears_the_memory_and_refuses_is_found_out() {
    Sizing::of(with_the_lent_memory, SEED).good(4, GOOD);
}

/// The end of the list's plan on so many modules; none where a job needs more.
fn end_on(list: &List, modules: u16, work: &mut [u8]) -> Option<u16> {
    earliest_end(&List { modules, ..list.clone() }.sheet(), work).ok()
}

/// Lists of 8 to 12 jobs of every family: on the count that is answered planning gives the same card, which ends by the minute, and on one
/// module fewer planning ends later, or has no plan.
#[test]
fn one_fewer_is_not_enough() {
    let mut work = vec![0; 1 << 20];
    let (mut sized, mut refused) = (0, 0);
    for (k, family) in families::all().iter().enumerate() {
        for n in [8, 10, 12] {
            let list = family.list(SEED, n).resting([0, 0, 5, 10][k % 4]);
            let sheet = list.sheet();
            let own = end_on(&list, list.modules, &mut work).expect("the list has a plan");
            for percent in [50, 75, 90, 100, 120] {
                let by = (u32::from(own) * percent / 100) as u16;
                let about = format!("{} of {n} jobs by {by}", list.name);
                let mut card = vec![0; card_length(n)];
                work.fill(0xA5);
                let Ok(modules) = size(&sheet, by, &mut card, &mut work) else {
                    assert!(work.iter().all(|byte| *byte == 0xA5), "{about}");
                    assert!(end_on(&list, MOST_MODULES, &mut work).is_none_or(|end| end > by), "{about}");
                    refused += 1;
                    continue;
                };
                assert!(work.iter().all(|byte| *byte == 0), "{about}");
                let mut planned = vec![0; card_length(n)];
                assert_eq!(plan(&List { modules, ..list.clone() }.sheet(), &mut planned, &mut work), Ok(()), "{about}");
                assert_eq!(card, planned, "{about}");
                assert!(Card::of(&card).expect("a card").end <= by, "{about}");
                assert!(modules == 1 || end_on(&list, modules - 1, &mut work).is_none_or(|end| end > by), "{about}");
                assert!(percent < 100 || modules <= list.modules, "{about}");
                sized += 1;
            }
        }
    }
    println!("{sized} sized, {refused} refused with 20");
    assert!(sized >= 1000 && refused >= 100, "{sized} sized, {refused} refused");
}

/// Twenty jobs: all at once, two at a time, one after another.
#[test]
fn twenty_jobs_alike() {
    let job = depot_host::Job { modules: 3, minutes: 10, ..Default::default() };
    let list = List { name: String::new(), modules: 1, changeover: 0, jobs: vec![job; MOST_JOBS] };
    let mut card = vec![0; card_length(MOST_JOBS)];
    for (by, modules) in [(10, 60), (19, 60), (20, 30), (30, 21), (100, 6), (199, 6), (200, 3), (u16::MAX, 3)] {
        assert_eq!(size(&list.sheet(), by, &mut card, &mut [0; 4096]), Ok(modules), "by {by}");
    }
    assert_eq!(size(&list.sheet(), 9, &mut card, &mut [0; 4096]), Err(Refusal::NoCountServes));
}
