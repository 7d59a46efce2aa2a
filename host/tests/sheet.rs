//! Reading, labels and writing on many sheets: `compare/sheet_calls.rs` says what is compared.
use depot_host::compare::sheet_calls::{Sheets, READING, WRITING};
use depot_host::LONGEST_SHEET;

const SEED: u64 = 448;
const GOOD: usize = 10_000;
const DAMAGED: usize = 1_500;
const SCRAMBLED: usize = 10_000;

fn passed(sheets: &Sheets, numbers: &[usize]) {
    let times = sheets.times(numbers);
    println!("answers {numbers:?}, {times:?} times");
    assert!(times.iter().all(|times| *times >= DAMAGED / 2));
}

#[test]
fn reading_is_what_document_01_says() {
    let mut sheets = Sheets::new(SEED);
    sheets.good_reading(GOOD);
    READING.iter().for_each(|check| sheets.damaged_reading(*check, DAMAGED));
    sheets.scrambled_reading(SCRAMBLED);
    passed(&sheets, &[0, 1, 2, 3, 4, 5, 6, 7, 14, 19]);
}

#[test]
fn bytes_of_no_sheet_are_refused() {
    let mut sheets = Sheets::new(SEED);
    (0..=LONGEST_SHEET + 12).for_each(|length| sheets.noisy_reading(length));
    let refused: usize = sheets.times(&[1, 2, 3, 4, 5, 6, 7, 19]).iter().sum();
    assert_eq!(refused, LONGEST_SHEET + 13);
}

#[test]
fn writing_is_what_document_01_says() {
    let mut sheets = Sheets::new(SEED);
    sheets.good_writing(GOOD);
    WRITING.iter().for_each(|check| sheets.damaged_writing(*check, DAMAGED));
    passed(&sheets, &[0, 2, 3, 5, 6, 7, 10, 19]);
}
