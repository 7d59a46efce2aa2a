//! The search in plain Rust on lists of every family: `compare/search.rs` says what is compared.
use depot_host::compare::sheets;
use depot_host::families::{self, Family};
use depot_host::lists::List;
use depot_host::plain_search::{mislead, run_believing, run_with, Outcome, Rules, Tables, GROUP};
use depot_host::random::Random;
use depot_host::{compare, lists};

fn every_family(seeds: u64, compare: fn(&Family, u64)) {
    let families = families::all();
    for family in &families {
        (0..seeds).for_each(|seed| compare(family, seed));
    }
    assert!(families.len() > 100);
}

#[test]
fn order_and_end_are_the_library_s() {
    every_family(12, compare::search::compare);
}

#[test]
fn order_and_end_are_the_library_s_where_jobs_arrive() {
    every_family(8, compare::search::compare_arriving);
}

#[test]
fn no_rule_changes_an_answer() {
    every_family(6, compare::search::compare_each_left_out);
}

/// How often the arrivals, or the changeovers, of random sheets bite, all compared with every order.
fn that_bite(compare: fn(&mut Random, &[(&str, Rules)]) -> bool, sheets: usize, all: &[(&str, Rules)]) -> usize {
    let mut random = Random::new(2_026);
    (0..sheets).filter(|_| compare(&mut random, all)).count()
}

#[test]
fn plans_with_arrivals_are_those_of_every_order() {
    let times = that_bite(compare::search::compare_arrivals, 40_000, &[("no rule", Rules::default())]);
    println!("{times} of 40,000 sheets have another plan without arrivals");
    assert!(times > 20_000);
}

#[test]
fn no_rule_changes_an_answer_where_jobs_arrive() {
    assert!(that_bite(compare::search::compare_arrivals, 4_000, &Rules::each_left_out()) > 2_000);
}

#[test]
fn plans_with_changeovers_are_those_of_every_order() {
    let times = that_bite(compare::search::compare_changeovers, 40_000, &[("no rule", Rules::default())]);
    println!("{times} of 40,000 sheets have another plan without a changeover");
    assert!(times > 20_000);
}

#[test]
fn no_rule_changes_an_answer_where_modules_rest() {
    assert!(that_bite(compare::search::compare_changeovers, 4_000, &Rules::each_left_out()) > 2_000);
}

/// On how many of the sheets each rule alone makes the search shorter.
fn cuts_of(rules: &[(&str, Rules)], of_sheets: impl Iterator<Item = Vec<bool>>) -> Vec<usize> {
    let mut cuts = vec![0; rules.len()];
    of_sheets.for_each(|of_sheet| cuts.iter_mut().zip(of_sheet).for_each(|(cuts, cut)| *cuts += usize::from(cut)));
    rules.iter().zip(&cuts).for_each(|((name, _), cuts)| println!("{name}: shorter on {cuts}"));
    cuts
}

/// A comparison tells nothing of a rule that never cuts there: on sheets of up to 7 jobs, against every order, all but the lanes do, whose
/// values are chosen from 9 jobs on. On lists of 9, against the search without cuts, all do.
#[test]
fn every_rule_cuts_where_it_is_compared() {
    let rules = Rules::each_alone();
    let mut random = Random::new(2_027);
    let small = cuts_of(&rules, (0..4_000).map(|_| compare::search::compare_cuts(&mut random, &rules)));
    assert!(rules.iter().zip(small).all(|((name, _), cuts)| cuts >= 500 || *name == "lanes"));
    let families = families::all();
    let larger = cuts_of(&rules, families.iter().step_by(3).map(|family| compare::search::compare_cuts_of(family, 1, &rules)));
    assert!(rules.iter().zip(larger).all(|(_, cuts)| cuts >= 2));
}

#[test]
fn order_and_end_are_the_library_s_where_modules_rest() {
    every_family(8, compare::search::compare_resting);
}

#[test]
fn a_search_is_given_up_at_its_limit() {
    let list = families::all()[0].list(1, 9);
    let visited_at_most = |most_visited| {
        let rules = Rules { most_visited, ..Rules::default() };
        run_with(&Tables::of(&list), &mut [], &rules)
    };
    let Outcome::Found(found) = visited_at_most(u64::MAX) else { panic!("the list has an order") };
    assert_eq!(visited_at_most(found.visited - 1), Outcome::GivenUp);
    assert_eq!(visited_at_most(found.visited), Outcome::Found(found));
}

#[test]
fn a_circle_has_no_order() {
    let circle = &lists::read("circle 2 4\n1 5 2\n1 5 1\n").expect("a list")[0];
    assert_eq!(run_with(&Tables::of(circle), &mut [], &Rules::default()), Outcome::NoOrder);
}

/// How many of the sheets that the planning call is compared on are planned wrongly by a search that believes the part-plans that
/// were planted in working memory of this length. The search that clears its memory plans them all as without memory.
fn misled(length: usize) -> usize {
    let mut random = Random::new(20_161);
    let is_misled = |_: &usize| {
        let sheet = sheets::good(&mut random);
        let list = List { name: String::new(), modules: sheet.modules, changeover: sheet.changeover, jobs: sheet.jobs };
        let tables = Tables::of(&list);
        let answer = |outcome| match outcome {
            Outcome::Found(found) => (found.end, found.order),
            other => panic!("{other:?}"),
        };
        let right = answer(run_with(&tables, &mut [], &Rules::default()));
        let mut planted = vec![0xA5; length];
        mislead(&mut planted, list.jobs.len());
        assert_eq!(answer(run_with(&tables, &mut planted.clone(), &Rules::default())), right);
        answer(run_believing(&tables, &mut planted, &Rules::default())) != right
    };
    (0..3_000).filter(is_misled).count()
}

#[test]
fn planted_part_plans_mislead_a_search_that_believes_them() {
    for length in [0, 1, GROUP - 1] {
        assert_eq!(misled(length), 0, "{length} bytes have no part-plan");
    }
    for length in [GROUP, GROUP + 1, 2 * GROUP - 1, 2 * GROUP, 4096, 1 << 16] {
        let times = misled(length);
        println!("{times} of 3,000 sheets, {length} bytes");
        assert!(times >= 10, "{length} bytes: {times}");
    }
}
