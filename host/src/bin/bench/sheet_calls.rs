//! Reading, labels and writing of the longest sheet, in nanoseconds: the least of several rounds.
use crate::clock::nanoseconds;
use depot_host::{ffi, label, read, sets, two_passes, write, Job, LONGEST_LABEL, LONGEST_SHEET, MOST_JOBS};

const ROUNDS: usize = 15;

type Bytes = [u8; LONGEST_SHEET];

pub fn measure() {
    let jobs = [Job { label_len: LONGEST_LABEL as u8, modules: 1, minutes: 1, ..Job::default() }; MOST_JOBS];
    let labels = [b'~'; LONGEST_LABEL * MOST_JOBS];
    let mut sheet = [0; LONGEST_SHEET];
    assert_eq!(write(&jobs, &labels, 64, 30, &mut sheet), Ok(LONGEST_SHEET));
    assert!(read(&sheet).is_ok(), "the longest sheet reads");
    println!("sheet of {LONGEST_SHEET} bytes, nanoseconds a call, the least of {ROUNDS} rounds");
    say("writing", least(|_| write(&jobs, &labels, 64, 30, &mut sheet).is_ok()));
    say("reading, the wrapper's", least(|_| read(&sheet).is_ok()));
    say("job sets", least(|_| sets(&sheet).is_ok()));
    say("label", least(|i| label(&sheet, i as usize % MOST_JOBS).is_ok()));
    // SAFETY: live bytes, and a call that is lent nothing.
    let reading = unsafe { ffi::depot_read(sheet.as_ptr(), sheet.len()) };
    say("label from a reading", least(|i| unsafe { ffi::depot_label_of(reading, i as usize % MOST_JOBS) }.refusal == 0));
    println!("{:<44} {:>7} {:>7}   {:>5}", "reading it in one pass and, as before, two", "one", "two", "ratio");
    for (what, sheet) in damaged(&sheet, labels.len()) {
        let [one, two] = one_and_two_passes(&sheet);
        println!("  {what:<42} {one:>7.1} {two:>7.1}   {:>5.2}", one / two);
    }
}

fn say(what: &str, nanoseconds: f64) {
    println!("  {what:<42} {nanoseconds:>7.1}");
}

fn least(mut call: impl FnMut(u32) -> bool) -> f64 {
    (0..ROUNDS).map(|_| nanoseconds(&mut call)).fold(f64::INFINITY, f64::min)
}

/// The sheet, and the sheet with a fault at its front or at its back; the records begin at `records`.
fn damaged(sheet: &Bytes, records: usize) -> Vec<(&'static str, Bytes)> {
    let last = records + 12 * (MOST_JOBS - 1);
    let with = |place: usize, byte: u8| {
        let mut sheet = *sheet;
        sheet[place] = byte;
        sheet
    };
    vec![
        ("good", *sheet),
        ("5: the first job needs no modules", with(records + 1, 0)),
        ("5: the last job needs no modules", with(last + 1, 0)),
        ("6: the first label is a byte shorter", with(records, LONGEST_LABEL as u8 - 1)),
        ("6: the last label is a byte shorter", with(last, LONGEST_LABEL as u8 - 1)),
        ("7: the first byte is 127", with(0, 127)),
        ("7: the last label byte is 127", with(records - 1, 127)),
    ]
}

/// The reader of today and the one of before, by turns, so that what else the machine does meets both.
fn one_and_two_passes(sheet: &Bytes) -> [f64; 2] {
    let mut times = [f64::INFINITY; 2];
    for _ in 0..ROUNDS {
        // SAFETY: live bytes.
        let one = nanoseconds(|_| unsafe { ffi::depot_read(sheet.as_ptr(), sheet.len()) }.refusal == 0);
        let two = nanoseconds(|_| two_passes::read(sheet).refusal == 0);
        times = [times[0].min(one), times[1].min(two)];
    }
    times
}
