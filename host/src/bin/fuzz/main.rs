//! Compares the library with the other implementations as long as it is asked to; the tests do the same a fixed number of times.
use depot_host::compare::runner::{Runs, CARD_FAULTS};
use depot_host::compare::sheet_calls::{Sheets, READING, WRITING};
use depot_host::compare::{
    desk::Answers, older::Older, planning::Planning, search, sets::Sets, sheets::CHECKS, sizing::Sizing, slack::Slack,
    usage::Uses,
};
use depot_host::plain_search::Rules;
use depot_host::random::Random;
use depot_host::raw_sheet::Layout;
use depot_host::{families, LONGEST_SHEET};
use std::time::{Duration, Instant, SystemTime, UNIX_EPOCH};
use std::{env, panic, process};

const USAGE: &str = "\
usage: fuzz [--minutes M] [--seed N] [--rounds R] [--larger]

Compares planning, reading, labels, writing, the desk's calls, the plan runner and the search with other implementations, round by
round, each round with a seed of its own. At the first difference it stops, with the seed of the round and what shows the difference.

  --minutes M   stop after the first round that ends behind so many minutes (10)
  --seed N      seed of the first round; the next have N + 1, N + 2, .. (the clock's, and it is printed)
  --rounds R    stop after so many rounds too
  --larger      planning alone, in rounds of 20 sheets of 8 and 9 jobs
";

/// What a round compares.
const SHEETS: usize = 400;
const FAULTS: usize = 40;
const DESKS: usize = 2_000;
const NIGHTS: usize = 500;
const LARGER: usize = 10;

struct Options {
    time: Duration,
    seed: u64,
    rounds: u64,
    round: fn(u64, &mut Compared),
}

/// How much was compared.
#[derive(Default)]
struct Compared {
    planned: usize,
    read: usize,
    desk_calls: usize,
    steps: usize,
    searches: usize,
}

fn main() {
    let words: Vec<String> = env::args().skip(1).collect();
    let options = match options(&words) {
        Ok(Some(options)) => options,
        Ok(None) => return print!("{USAGE}"),
        Err(why) => {
            eprint!("fuzz: {why}\n\n{USAGE}");
            process::exit(2);
        }
    };
    println!("seed {}", options.seed);
    let start = Instant::now();
    let mut compared = Compared::default();
    let mut rounds = 0;
    while rounds < options.rounds && start.elapsed() < options.time {
        let seed = options.seed.wrapping_add(rounds);
        if panic::catch_unwind(panic::AssertUnwindSafe(|| (options.round)(seed, &mut compared))).is_err() {
            println!("a difference: it shows again with --seed {seed} --rounds 1");
            process::exit(1);
        }
        rounds += 1;
        if rounds.is_power_of_two() {
            tell(rounds, &compared, start);
        }
    }
    tell(rounds, &compared, start);
    println!("no difference");
}

fn tell(rounds: u64, compared: &Compared, start: Instant) {
    let Compared { planned, read, desk_calls, steps, searches } = compared;
    println!(
        "{} s, {rounds} rounds: {planned} sheets planned, {read} read or written, {desk_calls} calls of desks, {steps} steps of \
         runners, {searches} searches",
        start.elapsed().as_secs()
    );
}

/// One round: everything a little, from this seed.
fn round(seed: u64, compared: &mut Compared) {
    let mut planning = Planning::new(seed);
    planning.good(SHEETS);
    CHECKS.iter().for_each(|check| planning.damaged(*check, FAULTS));
    planning.short_cards(FAULTS);
    planning.scrambled(2 * FAULTS);
    planning.noisy(any_length(seed));
    compared.planned += planning.compared;

    for layout in Layout::OLDER {
        let mut older = Older::new(layout, seed);
        older.good(FAULTS);
        (5..=9).for_each(|check| older.damaged(check, FAULTS));
        older.short_cards(FAULTS);
        older.scrambled(FAULTS);
        compared.planned += older.answers.iter().sum::<usize>();
    }

    let mut sheets = Sheets::new(seed);
    sheets.good_reading(SHEETS);
    READING.iter().for_each(|check| sheets.damaged_reading(*check, FAULTS));
    sheets.scrambled_reading(SHEETS);
    sheets.noisy_reading(any_length(seed));
    sheets.good_writing(SHEETS);
    WRITING.iter().for_each(|check| sheets.damaged_writing(*check, FAULTS));
    compared.read += 3 * SHEETS + (READING.len() + WRITING.len()) * FAULTS + 1;

    let mut sets = Sets::new(seed);
    sets.good(12, SHEETS);
    CHECKS.iter().for_each(|check| sets.damaged(*check, FAULTS));
    compared.read += sets.compared;

    let mut sizing = Sizing::new(seed);
    sizing.good(5, SHEETS);
    CHECKS.iter().for_each(|check| sizing.damaged(*check, FAULTS));
    sizing.short_cards(FAULTS);
    compared.planned += sizing.compared;

    let mut uses = Uses::new(seed);
    uses.good(SHEETS);
    uses.resting(SHEETS);
    CHECKS.iter().for_each(|check| uses.damaged(*check, FAULTS));
    compared.planned += uses.compared;

    let mut slack = Slack::new(seed);
    slack.good(6, SHEETS);
    CHECKS.iter().for_each(|check| slack.damaged(*check, FAULTS));
    compared.planned += slack.compared;

    let mut answers = Answers::default();
    let mut random = Random::new(seed);
    (0..DESKS).for_each(|_| answers.on_a_desk(&mut random));
    compared.desk_calls += answers.calls();

    let mut runs = Runs::new(seed);
    (0..NIGHTS).for_each(|_| runs.night());
    (0..SHEETS).for_each(|_| runs.refused_starts());
    CARD_FAULTS.iter().for_each(|fault| (0..FAULTS).for_each(|_| runs.spoilt_card(*fault)));
    compared.steps += runs.steps();

    let all_rules = [("no rule", Rules::default())];
    for _ in 0..SHEETS {
        search::compare_arrivals(&mut random, &all_rules);
        search::compare_changeovers(&mut random, &all_rules);
        compared.planned += 2;
    }
    for family in families::all() {
        search::compare(&family, seed);
        search::compare_arriving(&family, seed);
        search::compare_resting(&family, seed);
        compared.searches += 6;
    }
}

/// A length of bytes that may be a sheet, or just too long.
fn any_length(seed: u64) -> usize {
    (seed % (LONGEST_SHEET as u64 + 13)) as usize
}

/// One round of larger sheets, from this seed.
fn larger(seed: u64, compared: &mut Compared) {
    let mut planning = Planning::new(seed);
    [8, 9].into_iter().for_each(|n| planning.of_size(n, LARGER));
    compared.planned += planning.compared;
}

/// The options, none where help is asked for, or why they cannot be.
fn options(words: &[String]) -> Result<Option<Options>, String> {
    let now = SystemTime::now().duration_since(UNIX_EPOCH).map_or(0, |since| since.as_secs());
    let mut options = Options { time: Duration::from_secs(600), seed: now, rounds: u64::MAX, round };
    let mut words = words.iter();
    while let Some(word) = words.next() {
        let mut number =
            || words.next().and_then(|value| value.parse::<u64>().ok()).ok_or(format!("{word} takes a whole number"));
        match word.as_str() {
            "--minutes" => options.time = Duration::from_secs(60 * number()?.min(1 << 40)),
            "--seed" => options.seed = number()?,
            "--rounds" => options.rounds = number()?,
            "--larger" => options.round = larger,
            "--help" | "-h" => return Ok(None),
            _ => return Err(format!("there is no option '{word}'")),
        }
    }
    Ok(Some(options))
}
