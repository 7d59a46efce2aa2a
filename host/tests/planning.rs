//! The planning call on many sheets: `compare/planning.rs` says what is compared.
use depot_host::compare::planning::Planning;
use depot_host::compare::sheets;
use depot_host::lists::List;
use depot_host::plain_search::{run_believing, Outcome, Rules, Tables};
use depot_host::{plan, read, Refusal, LONGEST_SHEET};

const SEED: u64 = 20_160;
const GOOD: usize = 14_000;
const DAMAGED: usize = 1_000;
const SCRAMBLED: usize = 2_000;

#[test]
fn planning_is_what_document_01_says() {
    let mut planning = Planning::new(SEED);
    planning.good(GOOD);
    sheets::CHECKS.iter().for_each(|check| planning.damaged(*check, DAMAGED));
    planning.short_cards(DAMAGED);
    planning.scrambled(SCRAMBLED);
    println!("{} sheets, answers 0 to 19: {:?}", planning.compared, planning.answers);
    assert!(planning.answers[0] >= GOOD);
    let often = |number: usize| planning.answers[number] >= DAMAGED / 2;
    assert!((1..=10).chain([19]).all(often), "{:?}", planning.answers);
}

#[test]
fn bytes_of_no_sheet_are_refused() {
    let mut planning = Planning::new(SEED);
    (0..=LONGEST_SHEET + 12).for_each(|length| planning.noisy(length));
    assert_eq!(planning.compared, LONGEST_SHEET + 13);
}

/// Planning whose end is that of a search that does not clear its working memory.
fn believing(sheet: &[u8], card: &mut [u8], work: &mut [u8]) -> Result<(), Refusal> {
    let mut believed = work.to_vec();
    plan(sheet, card, work)?;
    let reading = read(sheet)?;
    let at = 13 * reading.jobs.len() + 4;
    let list = List { name: String::new(), modules: reading.modules, changeover: reading.changeover, jobs: reading.jobs };
    if let Outcome::Found(found) = run_believing(&Tables::of(&list), &mut believed, &Rules::default()) {
        card[at..at + 2].copy_from_slice(&found.end.to_le_bytes());
    }
    Ok(())
}

#[test]
#[should_panic(expected = "assertion `left == right` failed: sheet")]
fn a_planner_that_believes_its_working_memory_is_found_out() {
    Planning::of(believing, SEED).good(GOOD);
}
