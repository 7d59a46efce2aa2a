//! Older sheets in today's layout: `compare/older.rs` says what is compared.
use depot_host::compare::older::Older;
use depot_host::compare::sheets;
use depot_host::random::Random;
use depot_host::raw_sheet::Layout;
use depot_host::{read, Refusal};

const SEED: u64 = 568;
const GOOD: usize = 6_000;
const DAMAGED: usize = 1_500;

fn compared(layout: Layout) {
    let mut older = Older::new(layout, SEED);
    older.good(GOOD);
    (5..=9).for_each(|check| older.damaged(check, DAMAGED));
    older.short_cards(DAMAGED);
    older.scrambled(DAMAGED);
    println!("{layout:?}, answers 0 to 10: {:?}", older.answers);
    assert_eq!(older.answers[1..5], [0; 4]);
    assert!(older.answers[0] >= GOOD, "{:?}", older.answers);
    assert!(older.answers[5..].iter().all(|times| *times >= DAMAGED / 2), "{:?}", older.answers);
}

#[test]
fn sheets_without_arrivals_give_the_same_plans_and_refusals() {
    compared(Layout::BeforeArrivals);
}

#[test]
fn sheets_without_a_changeover_give_the_same_plans_and_refusals() {
    compared(Layout::BeforeChangeovers);
}

/// None reads as it is, which is to say as another sheet: two bytes later n is read for N, and N for the changeover.
#[test]
fn older_sheets_as_they_are_do_not_read() {
    let mut random = Random::new(SEED);
    for turn in 0..GOOD {
        let sheet = sheets::of_size(&mut random, turn % 21);
        let expected = match sheet.modules {
            _ if sheet.jobs.is_empty() => Refusal::SheetLength,
            31.. => Refusal::Changeover,
            _ => Refusal::RecordOffset,
        };
        for layout in Layout::OLDER {
            let bytes = sheet.bytes_in(layout);
            assert_eq!(read(&bytes), Err(expected), "{layout:?}, sheet {bytes:02x?}");
        }
    }
}
