//! Planning with a limit: `compare/limited.rs` says what is compared.
use depot_host::compare::limited::Limits;
use depot_host::compare::sheets;
use depot_host::families;
use depot_host::{card_length, plan_within, Limited, Refusal, NO_LIMIT};

const SEED: u64 = 90_009;
const GOOD: usize = 5_000;
const DAMAGED: usize = 200;

#[test]
fn plans_within_a_limit_are_what_is_said_of_them() {
    let mut limits = Limits::new(SEED);
    limits.good(GOOD);
    sheets::CHECKS.iter().for_each(|check| limits.damaged(*check, DAMAGED));
    let Limits { compared, answers, unmarked, other_plans, .. } = limits;
    println!("{compared} sheets, {unmarked} answers not marked, {other_plans} with another plan; {answers:?}");
    assert!(answers[0] >= 20_000 && unmarked >= 5_000 && other_plans >= 2_000);
    assert!((1..=9).chain([19]).all(|number| answers[number] >= DAMAGED / 2), "{answers:?}");
}

fn every_plan_is_marked(sheet: &[u8], card: &mut [u8], work: &mut [u8], limit: u64) -> Result<Limited, Refusal> {
    plan_within(sheet, card, work, limit).map(|answer| Limited { exact: true, ..answer })
}

fn a_minute_more(sheet: &[u8], card: &mut [u8], work: &mut [u8], limit: u64) -> Result<Limited, Refusal> {
    plan_within(sheet, card, work, limit).map(|answer| Limited { bound: answer.end + 1, ..answer })
}

#[test]
#[should_panic(expected = "marked, and not planning's")]
fn a_mark_that_is_not_earned_is_found_out() {
    Limits::of(every_plan_is_marked, SEED).good(1_000);
}

#[test]
#[should_panic(expected = "a plan ends before the bound")]
fn a_bound_that_is_too_late_is_found_out() {
    Limits::of(a_minute_more, SEED).good(100);
}

/// Lists of a yard's 15 buses, on which the search gives up with a gap: the earliest end lies in it.
#[test]
fn the_earliest_end_lies_in_the_gap() {
    let (mut gaps, mut closed) = (0, 0);
    for list in families::yard().iter().flat_map(|family| (1..=3).map(|seed| family.list(seed, 15))) {
        let sheet = list.sheet();
        let (mut card, mut work) = (vec![0; card_length(15)], vec![0; 1 << 20]);
        let mut ask = |limit| plan_within(&sheet, &mut card, &mut work, limit).expect("the list has a plan");
        let earliest = ask(NO_LIMIT);
        assert!(earliest.exact && earliest.bound == earliest.end);
        for limit in [0, 10_000, 1_000_000] {
            let Limited { end, bound, exact } = ask(limit);
            assert!(bound <= earliest.end && earliest.end <= end, "{bound} to {end}, limit {limit}");
            assert!(!exact || end == earliest.end);
            gaps += usize::from(bound < end);
            closed += usize::from(exact);
        }
    }
    println!("{gaps} with a gap, {closed} exact");
    assert!(gaps >= 5 && closed >= 20);
}
