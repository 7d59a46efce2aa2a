//! The plan runner on many nights: `compare/runner.rs` says what is compared. Check 14 against the runners that starts and steps were seen
//! to leave.
use depot_host::compare::runner::{library_step, Runs, CARD_FAULTS, RUNNER_FAULTS};
use depot_host::raw_sheet::Sheet;
use depot_host::{ffi, Desk, Job, Refusal, Runner, LONGEST_SHEET, MOST_CONTROLLERS};
use std::collections::HashSet;

const SEED: u64 = 110_011;
const NIGHTS: usize = 6_000;
const REFUSED: usize = 12_000;
const SPOILT: usize = 1_000;

#[test]
fn runs_are_those_of_the_requirements() {
    let mut runs = Runs::new(SEED);
    (0..NIGHTS).for_each(|_| runs.night());
    (0..REFUSED).for_each(|_| runs.refused_starts());
    CARD_FAULTS.iter().for_each(|fault| (0..SPOILT).for_each(|_| runs.spoilt_card(*fault)));
    let counts = runs.counts;
    println!("{} steps; starts and steps by number: {:?}, {:?}", runs.steps(), counts.starts, counts.steps);
    println!("with calls {}, without {}, behind the last hand-back {}", counts.with_calls, counts.quiet, counts.behind);
    println!("with calls and the conditions kept {}; changes of shares {}", counts.assured, counts.changes);
    assert!(runs.steps() >= 400_000);
    assert!(counts.starts[0] >= 10_000);
    for number in (1..=9).chain([19, 14, 24, 25, 26]) {
        assert!(counts.starts[number] >= 200, "start {number}: {} times", counts.starts[number]);
    }
    for number in [14, 16, 17, 18] {
        assert!(counts.steps[number] >= 3_000, "step {number}: {} times", counts.steps[number]);
    }
    let met = |numbers: &[usize], all: &[usize]| numbers.iter().map(|number| all[*number]).sum::<usize>() == all.iter().sum();
    assert!(met(&[0, 1, 2, 3, 4, 5, 6, 7, 8, 9, 19, 14, 24, 25, 26], &counts.starts));
    assert!(met(&[0, 14, 16, 17, 18], &counts.steps));
    assert!(counts.with_calls >= 30_000 && counts.quiet >= 200_000 && counts.behind >= 50_000);
    assert!(counts.assured >= 25_000 && counts.changes >= 25_000);
    for fault in CARD_FAULTS {
        let [refused, accepted] = counts.spoilt_cards[fault as usize];
        println!("cards, {fault:?}: refused {refused}, accepted {accepted}");
        assert!(refused >= SPOILT / 2, "{fault:?}");
    }
    for fault in RUNNER_FAULTS {
        let [refused, else_] = counts.spoilt_runners[fault as usize];
        println!("runners, {fault:?}: 14 {refused}, other {else_}");
        assert!(refused >= SPOILT / 2, "{fault:?}");
    }
}

/// A step that goes on counting minutes behind the last hand-back.
fn counts_on(runner: Runner, desk: Desk) -> ffi::Stepped {
    let mut stepped = library_step(runner, desk);
    if stepped.refusal == 0 {
        stepped.runner.minute = runner.minute + 1;
    }
    stepped
}

#[test]
#[should_panic(expected = "assertion `left == right` failed: step of")]
fn a_step_that_counts_on_is_found_out() {
    let mut runs = Runs::of(counts_on, SEED);
    (0..100).for_each(|_| runs.night());
}

/// A step that does not look at the bytes behind the kept sheet.
fn overlooks(runner: Runner, desk: Desk) -> ffi::Stepped {
    let mut cleared = runner;
    cleared.sheet[runner.sheet_len.min(LONGEST_SHEET)..].fill(0);
    let stepped = library_step(cleared, desk);
    ffi::Stepped { runner: Runner { minute: stepped.runner.minute, ..runner }, ..stepped }
}

#[test]
#[should_panic(expected = "assertion `left == right` failed: step of")]
fn a_step_that_overlooks_bytes_is_found_out() {
    let mut runs = Runs::of(overlooks, SEED);
    (0..100).for_each(|_| runs.night());
}

// ---- check 14

const LIMIT: u32 = 12;

/// A desk of eight controllers that assures one of them of all, which holds so much.
fn desk_of(controller: u32, held: u32) -> Desk {
    let mut assured = [0; MOST_CONTROLLERS];
    assured[controller as usize] = LIMIT;
    let mut desk = Desk::open(LIMIT, &assured, &[LIMIT; MOST_CONTROLLERS]).unwrap();
    if held > 0 {
        desk.claim(controller, held).unwrap();
    }
    desk
}

/// Small sheets: none or one job, on one or two modules, with or without a changeover.
fn small_sheets() -> Vec<(usize, Vec<u8>)> {
    let job = Job { modules: 1, minutes: 2, ..Job::default() };
    let sheet = |n: usize, modules: u16, changeover: u16| Sheet { changeover, ..Sheet::of(modules, vec![job; n]) };
    let sheets = [(0, 1, 0), (1, 1, 0), (1, 2, 0), (1, 2, 1)];
    sheets.map(|(n, modules, changeover)| (n, sheet(n, modules, changeover).bytes())).to_vec()
}

/// Cards of so many jobs, good ones and others.
fn small_cards(n: usize) -> Vec<Vec<u8>> {
    if n == 0 {
        return vec![vec![0; 8], vec![0; 7], vec![0, 0, 0, 0, 0, 0, 1, 0]];
    }
    let card = |start: u8, end: u8, set: u8, job: u8, last: u8| {
        vec![start, 0, end, 0, set, 0, 0, 0, 0, 0, 0, 0, job, 12, 0, 0, 0, last, 0, 1, 0]
    };
    let mut cards = Vec::new();
    for (start, end) in (0..3).flat_map(|start| (1..6).map(move |end| (start, end))) {
        for (set, job) in (0..5).flat_map(|set| (0..2).map(move |job| (set, job))) {
            cards.extend((1..6).map(|last| card(start, end, set, job, last)));
        }
    }
    cards
}

/// Every runner that starts and steps leave, found by trying them all.
fn left_by_steps(sheet: &[u8], cards: &[Vec<u8>]) -> HashSet<Runner> {
    let mut next = Vec::new();
    for controller in 0..MOST_CONTROLLERS as u32 {
        for (card, size) in cards.iter().flat_map(|card| (0..5).map(move |size| (card, size))) {
            next.extend(Runner::start(sheet, card, &desk_of(controller, 0), controller, size));
        }
    }
    let mut left: HashSet<Runner> = next.iter().copied().collect();
    while let Some(runner) = next.pop() {
        for held in 0..5 {
            let mut after = runner;
            if after.step(&mut desk_of(runner.controller, held)).is_ok() && left.insert(after) {
                next.push(after);
            }
        }
    }
    left
}

/// The library's check 14 is exact on every small runner.
#[test]
fn check_14_knows_the_runners_that_steps_leave() {
    for (n, sheet) in small_sheets() {
        let cards = small_cards(n);
        let left = left_by_steps(&sheet, &cards);
        let mut tried = 0;
        for card in &cards {
            for (controller, size) in (0..10).flat_map(|controller| (0..5).map(move |size| (controller, size))) {
                for minute in 0..9 {
                    let mut runner = Runner { controller, size, minute, ..Runner::NONE };
                    runner.sheet_len = sheet.len();
                    runner.sheet[..sheet.len()].copy_from_slice(&sheet);
                    runner.card_len = card.len();
                    runner.card[..card.len()].copy_from_slice(card);
                    let mut after = runner;
                    let refused = after.step(&mut desk_of(controller.min(7), 0)) == Err(Refusal::NoSuchNumber);
                    assert_eq!(refused, !left.contains(&runner), "{runner:?}");
                    tried += 1;
                }
            }
        }
        println!("{} runners left, of {tried} tried", left.len());
        assert!(left.len() >= 32);
    }
}
