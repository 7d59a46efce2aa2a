//! Neighbours on one feeder who cannot be noticed: `compare/neighbours.rs` says what is merged and compared.
use depot_host::compare::neighbours::Neighbours;
use depot_host::{Desk, Refusal};

const SEED: u64 = 13_013;
const STRETCHES: usize = 6_000;

#[test]
fn who_keeps_to_its_share_is_answered_as_if_alone() {
    let mut neighbours = Neighbours::new(SEED);
    for with_greedy in [false, true] {
        (0..STRETCHES).for_each(|_| neighbours.stretch(with_greedy));
    }
    let counts = neighbours.counts;
    println!("{counts:?}");
    assert!(counts.mergings >= 24_000);
    assert!(counts.same_desk >= 5_000 && counts.beside_greedy >= 6_000);
    let met = |numbers: &[usize], all: &[usize]| numbers.iter().map(|number| all[*number]).sum::<usize>() == all.iter().sum();
    assert!(met(&[0, 15, 18], &counts.calls), "14, 16 and 17 do not occur");
    assert!([0, 15, 18].iter().all(|number| counts.calls[*number] >= 10_000));
    assert!(met(&[0, 14, 18], &counts.minutes), "16 and 17 do not occur");
    assert!([0, 14, 18].iter().all(|number| counts.minutes[*number] >= 1_000));
    assert!(counts.minutes_with_calls >= 10_000 && counts.minutes_beside >= 1_000);
    assert!(counts.greedy_granted >= 5_000 && counts.greedy_refused >= 10_000);
    assert!(counts.strangers >= 5_000 && counts.refused_changes >= 5_000);
    assert!(counts.looks_differ >= 1_000, "a look shows what others leave");
    assert!(counts.greedy_differ >= 1_000, "the desks differ, by what greedy neighbours hold");
}

/// What is excepted does differ: with a change of shares in the stretch, answers and desks depend on who comes first.
#[test]
fn a_change_of_shares_is_noticed() {
    let mut neighbours = Neighbours::new(SEED + 1);
    for with_greedy in [false, true] {
        (0..STRETCHES).for_each(|_| neighbours.changed_stretch(with_greedy));
    }
    let counts = neighbours.counts;
    println!("{counts:?}");
    assert!(counts.changed >= 10_000);
    assert!(counts.changed_answers >= 500, "who kept to its old share is answered differently");
    assert!(counts.changed_desks >= 100, "granted in one merging and refused in the other");
}

/// A claim that keeps a quarter of the limit free, whoever is assured of it.
fn keeps_some_free(desk: &mut Desk, controller: u32, power: u32) -> Result<(), Refusal> {
    let held = desk.held.iter().map(|held| u64::from(*held)).sum::<u64>() + u64::from(power);
    match Refusal::of_number(17) {
        Some(refusal) if power > 0 && 4 * held > 3 * u64::from(desk.limit) => Err(refusal),
        _ => desk.claim(controller, power),
    }
}

#[test]
#[should_panic(expected = "as if alone")]
fn a_desk_on_which_neighbours_are_noticed_is_found_out() {
    let mut neighbours = Neighbours::of(keeps_some_free, SEED);
    (0..1_000).for_each(|_| neighbours.stretch(true));
}

// ---- the example of docs/NEIGHBOURS.md

const NORTH: u32 = 0;
const SOUTH: u32 = 1;

/// A feeder of 500 kW: North is assured 240 kW and may have 420, South is assured 200 and may have 300.
fn feeder() -> Desk {
    Desk::open(5_000, &[2_400, 2_000], &[4_200, 3_000]).expect("the desk opens")
}

/// A claim, or with a minus sign a hand-back.
fn call(desk: &mut Desk, controller: u32, power: i32) -> u32 {
    let answer = match power {
        0.. => desk.claim(controller, power.unsigned_abs()),
        _ => desk.hand_back(controller, power.unsigned_abs()),
    };
    answer.err().map_or(0, Refusal::number)
}

const NORTHS: [i32; 4] = [1_200, 1_200, -600, 600];
const SOUTHS: [i32; 3] = [1_500, 500, -1_000];

/// North by itself; beside a neighbour who takes all that a look shows; and what North does notice.
#[test]
fn north_does_not_notice_a_greedy_south() {
    let [mut quiet, mut greedy] = [feeder(), feeder()];
    assert_eq!(greedy.look(SOUTH), Ok(2_600));
    assert_eq!(call(&mut greedy, SOUTH, 2_600), 0);
    assert_eq!([&quiet, &greedy].map(|desk| desk.look(NORTH)), [Ok(3_000), Ok(2_400)], "a look shows what the other leaves");
    for desk in [&mut quiet, &mut greedy] {
        assert_eq!(NORTHS.map(|power| call(desk, NORTH, power)), [0; 4]);
        assert_eq!(desk.held[NORTH as usize], 2_400);
    }
    assert_eq!([&mut quiet, &mut greedy].map(|desk| call(desk, NORTH, 300)), [0, 17], "beyond the share the other is noticed");
}

/// All 35 mergings of North's calls and South's end in the same desk, and nothing is refused.
#[test]
fn every_merging_of_north_and_south_ends_in_the_same_desk() {
    let mut ends = vec![];
    for souths in 0..1u32 << 7 {
        if souths.count_ones() != 3 {
            continue;
        }
        let (mut desk, mut north, mut south) = (feeder(), NORTHS.iter(), SOUTHS.iter());
        for place in 0..7 {
            let (controller, calls) = if souths >> place & 1 == 1 { (SOUTH, &mut south) } else { (NORTH, &mut north) };
            assert_eq!(call(&mut desk, controller, *calls.next().expect("a call is left")), 0);
        }
        ends.push(desk);
    }
    assert_eq!(ends.len(), 35);
    assert!(ends.iter().all(|desk| *desk == Desk { held: [2_400, 1_000, 0, 0, 0, 0, 0, 0], ..feeder() }));
}

/// North's share is cut to 180 kW before its last call: how much South then claims decides how it is answered.
#[test]
fn north_notices_a_change_of_shares() {
    let last = |souths_claim: i32| {
        let mut desk = feeder();
        assert_eq!([1_200, 1_200, -600].map(|power| call(&mut desk, NORTH, power)), [0; 3]);
        desk.change(5_000, &[1_800, 2_000], &[4_200, 3_000]).expect("the change is granted");
        assert_eq!(call(&mut desk, SOUTH, souths_claim), 0);
        call(&mut desk, NORTH, 600)
    };
    assert_eq!([2_000, 3_000].map(last), [0, 17]);
}
