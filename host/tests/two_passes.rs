//! Reading in one pass against the reader of before, from its own archive, on sheets good and damaged.
use depot_host::compare::sheet_calls::READING;
use depot_host::compare::two_passes::TwoPasses;
use depot_host::two_passes;

/// Every pair of the checks of reading, the same twice among them, and all of 5, 6 and 7: of several the first gives the number.
#[test]
fn both_give_the_same_answer() {
    let mut readers = TwoPasses::new(0x0F3, two_passes::read);
    readers.good(25_000);
    for (place, first) in READING.iter().enumerate() {
        for second in &READING[place..] {
            readers.damaged(&[*first, *second], 3_000);
        }
    }
    readers.damaged(&[5, 6, 7], 3_000);
    readers.scrambled(30_000);
    readers.noise(5_000);
    let answers = readers.answers();
    println!("{} sheets; 0, then {READING:?}: {answers:?}", answers.iter().sum::<usize>());
    assert!(answers.iter().sum::<usize>() >= 100_000);
    assert!(answers.iter().all(|times| *times >= 1_000), "{answers:?}");
}
