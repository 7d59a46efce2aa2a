//! The search in plain Rust against the library: the same order and end, whatever the memory and whichever rule is left out.
use super::sheets;
use crate::families::{Arrivals, Family};
use crate::lists::List;
use crate::plain_search::{run_with, Found, Outcome, Rules, Tables};
use crate::random::Random;
use crate::raw_sheet::Sheet;
use crate::reference::{planning, reading};
use crate::{card_length, earliest_end, plan};

const MEMORY: [usize; 4] = [0, 735, 4096, 1 << 16];

/// Plans a list of the family and this seed, of 2 to 9 jobs, both ways.
pub fn compare(family: &Family, seed: u64) {
    let n = (seed % 8) as usize + 2;
    compare_with(family, seed, n, &[("no rule", Rules::default())]);
}

/// The same for a list of 2 to 7 jobs, with each rule left out.
pub fn compare_each_left_out(family: &Family, seed: u64) {
    let n = (seed % 6) as usize + 2;
    compare_with(family, seed, n, &Rules::each_left_out());
}

/// Plans a list of the family with arrivals, of 2 to 9 jobs, both ways.
pub fn compare_arriving(family: &Family, seed: u64) {
    let n = (seed % 8) as usize + 2;
    for arrivals in Arrivals::ALL {
        compare_lists(&family.arriving(seed, n, arrivals), seed, &[("no rule", Rules::default())]);
    }
}

/// Plans a list of the family with a changeover, of 2 to 9 jobs, with arrivals and without, both ways.
pub fn compare_resting(family: &Family, seed: u64) {
    let n = (seed % 8) as usize + 2;
    let arriving = Arrivals::ALL.map(|arrivals| family.arriving(seed, n, arrivals));
    for list in arriving.into_iter().chain([family.list(seed, n)]) {
        compare_lists(&list.resting(5 + 5 * (seed % 2) as u16), seed, &[("no rule", Rules::default())]);
    }
}

fn compare_with(family: &Family, seed: u64, n: usize, all: &[(&str, Rules)]) {
    compare_lists(&family.list(seed, n), seed, all);
}

fn compare_lists(list: &List, seed: u64, all: &[(&str, Rules)]) {
    let n = list.jobs.len();
    let length = MEMORY[(seed % MEMORY.len() as u64) as usize];
    let mut card = vec![0; card_length(n)];
    let mut work = vec![0x5A; length];
    let about = || format!("{}, sheet {:02x?}, memory {length}", list.name, list.sheet());
    plan(&list.sheet(), &mut card, &mut work).unwrap_or_else(|refusal| panic!("{}: {refusal}", about()));
    let end = earliest_end(&list.sheet(), &mut work).map(u16::to_le_bytes);
    assert_eq!(end.as_ref().map(|bytes| &bytes[..]), Ok(&card[13 * n + 4..13 * n + 6]), "{}", about());
    for (left_out, rules) in all {
        work.fill(0xA5);
        let found = found(run_with(&Tables::of(list), &mut work, rules));
        assert_eq!(found.order, card[12 * n..13 * n], "{}, {left_out} left out", about());
        assert_eq!(found.end.to_le_bytes(), card[13 * n + 4..13 * n + 6], "{}, {left_out} left out", about());
        assert!(work.iter().all(|byte| *byte == 0), "{}, {left_out} left out", about());
    }
}

fn found(outcome: Outcome) -> Found {
    match outcome {
        Outcome::Found(found) => found,
        Outcome::GivenUp => panic!("given up without a limit"),
        Outcome::NoOrder => panic!("no family has circles"),
    }
}

/// A sheet of which some jobs arrive after minute 0, against every order. Tells whether the arrivals bite, which is to say that without
/// them there is another plan.
pub fn compare_arrivals(random: &mut Random, all: &[(&str, Rules)]) -> bool {
    let sheet = sheets::arriving(random);
    compare_every_order(random, sheet, all, |read| read.jobs.iter_mut().for_each(|job| job.arrival = 0))
}

/// The same of a sheet with a changeover, with arrivals or without: whether the changeover bites.
pub fn compare_changeovers(random: &mut Random, all: &[(&str, Rules)]) -> bool {
    let sheet = sheets::resting(random);
    compare_every_order(random, sheet, all, |read| read.changeover = 0)
}

/// A sheet against every order: the card that planning leaves, byte for byte, and the search in plain Rust, with all rules or with one left
/// out. Tells whether there is another plan without what is taken away.
fn compare_every_order(random: &mut Random, sheet: Sheet, all: &[(&str, Rules)], take_away: fn(&mut reading::Sheet)) -> bool {
    let bytes = sheet.bytes();
    let mut read = reading::read(&bytes).expect("a good sheet");
    let best = planning::best(&read);
    let mut work = vec![0; random.pick(&MEMORY)];
    let about = || format!("sheet {bytes:02x?}, {read:?}");
    let mut card = vec![0; card_length(sheet.jobs.len())];
    plan(&bytes, &mut card, &mut work).unwrap_or_else(|refusal| panic!("{}: {refusal}", about()));
    assert_eq!(card, best.card(), "{}, memory {}", about(), work.len());
    let tables =
        Tables::of(&List { name: String::new(), modules: sheet.modules, changeover: sheet.changeover, jobs: sheet.jobs });
    for (left_out, rules) in all {
        let found = found(run_with(&tables, &mut work, rules));
        let order: Vec<usize> = found.order.iter().map(|job| usize::from(*job)).collect();
        let (end, memory) = (u32::from(found.end), work.len());
        assert_eq!((end, &order), (best.end, &best.order), "{}, {left_out} left out, memory {memory}", about());
    }
    take_away(&mut read);
    let without = planning::best(&read);
    (best.end, &best.order) != (without.end, &without.order)
}

/// A sheet against every order, by each of these rules alone and without any: which of them make the search shorter there.
pub fn compare_cuts(random: &mut Random, each_alone: &[(&str, Rules)]) -> Vec<bool> {
    let sheet = if random.percent(50) { sheets::resting(random) } else { sheets::arriving(random) };
    let best = planning::best(&reading::read(&sheet.bytes()).expect("a good sheet"));
    let order = best.order.iter().map(|job| *job as u8).collect();
    let list = List { name: String::new(), modules: sheet.modules, changeover: sheet.changeover, jobs: sheet.jobs };
    cuts(&list, each_alone, (best.end as u16, order))
}

/// The same of a list of the family, of 9 jobs, against the search that makes no cut.
pub fn compare_cuts_of(family: &Family, seed: u64, each_alone: &[(&str, Rules)]) -> Vec<bool> {
    let list = family.list(seed, 9);
    let Found { end, order, .. } = found(run_with(&Tables::of(&list), &mut [], &Rules::bare()));
    cuts(&list, each_alone, (end, order))
}

fn cuts(list: &List, each_alone: &[(&str, Rules)], expected: (u16, Vec<u8>)) -> Vec<bool> {
    let visited = |name: &str, rules: &Rules| {
        let Found { end, order, visited } = found(run_with(&Tables::of(list), &mut [], rules));
        assert_eq!((end, &order), (expected.0, &expected.1), "{name} alone, {list:?}");
        visited
    };
    let bare = visited("no rule", &Rules::bare());
    each_alone.iter().map(|(name, rules)| visited(name, rules) < bare).collect()
}
