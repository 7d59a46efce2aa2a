//! The desk's calls on many desks: `compare/desk.rs` says what is compared. Check 14 against the desks that calls were seen to leave.
use depot_host::compare::desk::{Answers, KINDS};
use depot_host::random::Random;
use depot_host::reference::desk as reference;
use depot_host::{Desk, Refusal};
use std::collections::HashSet;

const SEED: u64 = 400_000;
const DESKS: usize = 60_000;

#[test]
fn calls_answer_what_document_01_says() {
    let mut random = Random::new(SEED);
    let mut answers = Answers::default();
    (0..DESKS).for_each(|_| answers.on_a_desk(&mut random));
    for (kind, numbers) in KINDS {
        let times: Vec<usize> = numbers.iter().map(|number| answers.by[kind][*number]).collect();
        println!("kind {kind}: answers {numbers:?}, {times:?} times");
        assert!(times.iter().all(|times| *times >= 1_000));
        assert_eq!(times.iter().sum::<usize>(), answers.by[kind].iter().sum());
    }
    assert!(answers.calls() >= 1_000_000, "{} calls", answers.calls());
    assert!(answers.scaled >= 50_000, "{} desks of larger modules", answers.scaled);
}

/// All lists of this length of the numbers 0 to `most`.
fn all_lists(length: usize, most: u32) -> Vec<Vec<u32>> {
    let longer = |list: Vec<u32>| (0..=most).map(move |x| [list.clone(), vec![x]].concat());
    (0..length).fold(vec![vec![]], |all, _| all.into_iter().flat_map(longer).collect())
}

/// Every opening of so many controllers with a limit up to this.
fn figures(count: usize, most: u32) -> Vec<(u32, Vec<u32>, Vec<u32>)> {
    let pairs = |limit| {
        let of_ceilings =
            move |assured: Vec<u32>| all_lists(count, limit).into_iter().map(move |tops| (limit, assured.clone(), tops));
        all_lists(count, limit).into_iter().flat_map(of_ceilings)
    };
    (1..=most).flat_map(pairs).collect()
}

/// Every desk of so many controllers with a limit up to this that openings, claims, hand-backs and, where they are asked for, changes
/// leave, found by trying them all.
fn left_by_calls(count: usize, most: u32, with_changes: bool) -> HashSet<Desk> {
    let figures = figures(count, most);
    let mut next: Vec<Desk> =
        figures.iter().filter_map(|(limit, assured, tops)| Desk::open(*limit, assured, tops).ok()).collect();
    let mut left: HashSet<Desk> = next.iter().copied().collect();
    while let Some(desk) = next.pop() {
        let mut take = |after: Desk| {
            if left.insert(after) {
                next.push(after);
            }
        };
        for controller in 0..desk.count {
            for power in 1..=desk.limit {
                for call in [Desk::claim, Desk::hand_back] {
                    let mut after = desk;
                    if call(&mut after, controller, power).is_ok() {
                        take(after);
                    }
                }
            }
        }
        for (limit, assured, tops) in figures.iter().filter(|_| with_changes) {
            let mut after = desk;
            if after.change(*limit, assured, tops).is_ok() {
                assert_eq!(after.held, desk.held);
                take(after);
            }
        }
    }
    left
}

/// The library's check 14 and the reference's test are exact on every small desk, and changes leave no others than openings, claims and
/// hand-backs do.
#[test]
fn check_14_knows_the_desks_that_calls_leave() {
    for (count, most) in [(2, 4), (3, 2)] {
        let left = left_by_calls(count, most, true);
        assert_eq!(left, left_by_calls(count, most, false));
        println!("{} desks of {count} controllers, limits up to {most}", left.len());
        for (limit, assured, ceilings) in figures(count, most) {
            for held in all_lists(count, limit + 1) {
                let mut desk = Desk { count: count as u32, limit, ..Desk::default() };
                desk.held[..count].copy_from_slice(&held);
                desk.assured[..count].copy_from_slice(&assured);
                desk.ceiling[..count].copy_from_slice(&ceilings);
                assert_eq!(reference::can_be_left(&desk), left.contains(&desk), "{desk:?}");
                assert_eq!(desk.look(0).is_ok(), left.contains(&desk), "{desk:?}");
                let same = desk.change(limit, &assured, &ceilings);
                assert_eq!(same == Err(Refusal::NoSuchNumber), !left.contains(&desk), "{desk:?}");
            }
        }
    }
}
