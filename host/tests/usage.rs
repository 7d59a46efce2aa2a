//! The use of the cabinet on many sheets: `compare/usage.rs` says what is compared.
use depot_host::compare::sheets;
use depot_host::compare::usage::Uses;
use depot_host::{earliest_end, read, usage, Refusal, Usage};

const SEED: u64 = 80_008;
const GOOD: usize = 20_000;
const RESTING: usize = 5_000;
const DAMAGED: usize = 500;

#[test]
fn use_is_what_is_counted() {
    let mut uses = Uses::new(SEED);
    uses.good(GOOD);
    uses.resting(RESTING);
    sheets::CHECKS.iter().for_each(|check| uses.damaged(*check, DAMAGED));
    let Uses { compared, answers, with_remainder, with_rests, .. } = uses;
    println!("{compared} sheets, {with_remainder} with a remainder, {with_rests} with rests; answers 0 to 23: {answers:?}");
    assert!(answers[0] >= 20_000 && with_remainder >= 10_000 && with_rests >= 10_000);
    assert!((1..=9).chain([19]).all(|number| answers[number] >= DAMAGED / 2), "{answers:?}");
    assert!(answers[23] >= 1_000, "{answers:?}");
}

/// The call with its figures changed by what is known of the sheet: the module-minutes that jobs occupy, the modules, the end and the rest
/// behind each job.
fn altered(sheet: &[u8], work: &mut [u8], figures: fn(Known) -> Usage) -> Result<Usage, Refusal> {
    usage(sheet, work)?;
    let reading = read(sheet)?;
    let end = u32::from(earliest_end(sheet, work)?);
    let modules = u32::from(reading.modules);
    let sum = |more: u32| reading.jobs.iter().map(|job| u32::from(job.modules) * (u32::from(job.minutes) + more)).sum();
    let known = Known { occupied: sum(0), kept: sum(reading.changeover.into()), modules, end };
    Ok(figures(known))
}

struct Known {
    occupied: u32,
    /// The same with a changeover behind each job.
    kept: u32,
    modules: u32,
    end: u32,
}

fn rounded_up(sheet: &[u8], work: &mut [u8]) -> Result<Usage, Refusal> {
    altered(sheet, work, |Known { occupied, modules, end, .. }| {
        let all = modules * end;
        Usage { per_mille: (1000 * occupied).div_ceil(all), remainder: 1000 * occupied % all }
    })
}

fn with_changeovers(sheet: &[u8], work: &mut [u8]) -> Result<Usage, Refusal> {
    altered(sheet, work, |Known { kept, modules, end, .. }| {
        let all = modules * end;
        Usage { per_mille: 1000 * kept / all, remainder: 1000 * kept % all }
    })
}

fn of_another_product(sheet: &[u8], work: &mut [u8]) -> Result<Usage, Refusal> {
    altered(sheet, work, |Known { occupied, modules, end, .. }| Usage {
        per_mille: 1000 * occupied / (modules * end),
        remainder: 1000 * occupied % end,
    })
}

#[test]
#[should_panic(expected = "assertion `left == right` failed: sheet")]
fn a_share_that_is_rounded_up_is_found_out() {
    Uses::of(rounded_up, SEED).good(100);
}

#[test]
#[should_panic(expected = "assertion `left == right` failed: sheet")]
fn a_share_with_changeovers_is_found_out() {
    Uses::of(with_changeovers, SEED).good(100);
}

#[test]
#[should_panic(expected = "assertion `left == right` failed: sheet")]
fn a_remainder_of_another_product_is_found_out() {
    Uses::of(of_another_product, SEED).good(100);
}
