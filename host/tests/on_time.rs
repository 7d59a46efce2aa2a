//! Plans in which nobody is late: what mirrored lists say, beside every order tried in turn.
use depot_host::compare::sheets;
use depot_host::families;
use depot_host::on_time::{Deadlines, OnTime, Plan};
use depot_host::order::Order;
use depot_host::random::Random;
use depot_host::reference::planning::every_list_plan;
use depot_host::reference::reading::Sheet;
use depot_host::{card_length, earliest_end, plan, read, reference, Card, Job, Reading, Refusal, Runner};
use depot_host::{Desk, MOST_JOBS};

const SEED: u64 = 7_341;
const LISTS: usize = 20_000;

fn call(sheet: &[u8]) -> Result<Vec<u8>, Refusal> {
    let mut card = vec![0; card_length(read(sheet)?.jobs.len())];
    plan(sheet, &mut card, &mut vec![0; 1 << 16]).map(|()| card)
}

/// Departures of which some are early for the list's end, and the others behind it.
fn with_departures(random: &mut Random, jobs: &mut [Job], end: u16) {
    let early = random.pick(&[20, 50, 80]);
    for job in jobs {
        let last = if random.percent(early) { end } else { end.saturating_mul(2) };
        let first = job.arrival + job.minutes;
        job.departure = random.between(first.into(), last.max(first).into()).min(2880) as u16;
    }
}

/// The end of the first list plan in which nobody is later than it must be, by trying every order; none where there is none. A job must be
/// as late as it would be beside those alone that it waits for.
fn by_every_order(sheet: &[u8]) -> Option<u32> {
    let sheet = reference::reading::read(sheet).expect("a sheet that reads");
    let due: Vec<u32> = (0..sheet.jobs.len()).map(|job| head(&sheet, job).max(sheet.jobs[job].departure)).collect();
    let mut first: Option<u32> = None;
    every_list_plan(&sheet, &mut |slots| {
        if slots.iter().all(|slot| slot.end <= due[slot.job]) {
            let end = slots.iter().map(|slot| slot.end).max().unwrap_or(0);
            first = Some(first.map_or(end, |first| first.min(end)));
        }
    });
    first
}

/// The earliest end of a job beside those alone that it waits for.
fn head(sheet: &Sheet, job: usize) -> u32 {
    let wanted = &sheet.jobs[job];
    let rest = |earlier: &usize| if sheet.jobs[*earlier].modules + wanted.modules > sheet.modules { sheet.changeover } else { 0 };
    wanted.earlier.iter().map(|earlier| head(sheet, *earlier) + rest(earlier)).max().unwrap_or(0).max(wanted.arrival)
        + wanted.minutes
}

/// The library takes the card for one of a valid plan of the list: a runner starts with it.
fn is_valid(list: &[u8], found: &Plan) -> bool {
    let figures = read(list).expect("a list's sheet reads");
    let card = Order::as_listed(figures.jobs.len());
    assert_eq!(card.card_back(&found.card), found.card);
    let own = figures.modules.into();
    let desk = Desk::open(u32::from(figures.modules) * 2, &[own, 0], &[own, 1]).expect("a desk");
    Runner::start(list, &bytes_of(&found.card), &desk, 0, 1).is_ok()
}

/// The bytes of a card in the list's order.
fn bytes_of(card: &Card) -> Vec<u8> {
    let row = |row: &depot_host::Row| [&row.start.to_le_bytes()[..], &row.end.to_le_bytes(), &row.modules.to_le_bytes()].concat();
    let n = card.rows.len();
    let trailer = [&(12 * n as u32).to_le_bytes()[..], &card.end.to_le_bytes(), &(n as u16).to_le_bytes()].concat();
    [card.rows.iter().flat_map(row).collect(), card.order.clone(), trailer].concat()
}

#[test]
fn mirrored_lists_say_when_nobody_is_late() {
    let mut random = Random::new(SEED);
    let mut counts = [0; 5];
    for turn in 0..LISTS {
        let mut sheet = if turn % 3 == 0 { sheets::resting(&mut random) } else { sheets::good(&mut random) };
        if sheet.jobs.len() > 6 {
            continue;
        }
        if turn % 2 == 0 {
            sheet.jobs.iter_mut().for_each(|job| job.arrival = 0);
        }
        let end = earliest_end(&sheet.bytes(), &mut []).expect("a good sheet");
        with_departures(&mut random, &mut sheet.jobs, end);
        let list = sheet.bytes();
        let figures = read(&list).unwrap();
        let deadlines = Deadlines::of(&list, &figures);
        let (found, known) = deadlines.plan(call).unwrap();
        let first = by_every_order(&list);
        assert!(found.card.end == end && is_valid(&list, &found), "{list:02x?}");
        assert_eq!(deadlines.late_minutes(&found.card) == 0, known == OnTime::This, "{list:02x?}");
        let with_arrivals = figures.jobs.iter().any(|job| job.arrival > 0);
        match known {
            OnTime::This => counts[0] += 1,
            OnTime::From(at) => {
                counts[1] += 1;
                assert_eq!(first, Some(at.into()), "{list:02x?}");
                assert!(at > end);
                match deadlines.plan_ending(at, call).unwrap() {
                    Some(later) => {
                        assert_eq!((later.card.end, deadlines.late_minutes(&later.card)), (at, 0), "{list:02x?}");
                        assert!(is_valid(&list, &later), "{list:02x?}");
                    }
                    None => assert!(at > 1440, "{list:02x?}"),
                }
            }
            OnTime::NotBefore(at) => {
                counts[if first == Some(at.into()) { 2 } else { 3 }] += 1;
                // a mirrored sheet cannot say arrivals after minute 1440
                let minutes: u32 = figures.jobs.iter().map(|job| u32::from(job.minutes + figures.changeover)).sum();
                let is_long = minutes > 1440 || figures.jobs.iter().any(|job| job.departure > 1440);
                assert!((with_arrivals || is_long) && at >= end, "{list:02x?}");
                assert!(first.is_none_or(|first| first >= at.into()), "{list:02x?}");
            }
            OnTime::Never => {
                counts[4] += 1;
                assert_eq!(first, None, "{list:02x?}");
            }
        }
    }
    println!("on time, from a minute on, open with the bound right, open, never: {counts:?}");
    assert!(counts[0] >= 10_000 && counts[1] >= 50 && counts[2] >= 5 && counts[4] >= 3_000, "{counts:?}");
    assert!(counts[2] + counts[3] <= 1_000, "few are left open: {counts:?}");
}

/// A caller who waits for so many answers only: the plan up to there is valid, ends as early, and no further call leaves more late minutes.
#[test]
fn calls_that_are_not_waited_for() {
    let mut random = Random::new(SEED);
    let mut stopped = 0;
    for _ in 0..2_000 {
        let mut sheet = sheets::good(&mut random);
        let end = earliest_end(&sheet.bytes(), &mut []).expect("a good sheet");
        with_departures(&mut random, &mut sheet.jobs, end);
        let list = sheet.bytes();
        let figures = read(&list).unwrap();
        let deadlines = Deadlines::of(&list, &figures);
        let (best, known) = deadlines.plan(call).unwrap();
        let mut last = None;
        for answers in 0..100 {
            let mut left = answers;
            let waiting = |sheet: &[u8]| {
                left = usize::checked_sub(left, 1).ok_or(())?;
                Ok::<_, ()>(call(sheet).expect("a plan"))
            };
            let (plan, found) = deadlines.improved(deadlines.first(call).unwrap(), waiting);
            let late = deadlines.late_minutes(&plan.card);
            assert!(plan.card.end == end && is_valid(&list, &plan), "{list:02x?}");
            assert!(last.is_none_or(|last| late <= last), "{list:02x?}");
            last = Some(late);
            if let Ok(found) = found {
                assert_eq!((plan.card, found), (best.card, known), "{list:02x?}");
                break;
            }
            stopped += 1;
        }
    }
    println!("{stopped} were stopped");
    assert!(stopped >= 1_000);
}

/// Larger lists, where every order is too many: the answers agree with each other.
#[test]
fn larger_lists() {
    let mut random = Random::new(SEED);
    for family in families::all().iter().filter(|family| family.name().starts_with("depot")) {
        let mut list = family.list(SEED, 12);
        let end = earliest_end(&list.sheet(), &mut vec![0; 1 << 20]).unwrap();
        with_departures(&mut random, &mut list.jobs, end);
        let sheet = list.sheet();
        let figures = read(&sheet).unwrap();
        let deadlines = Deadlines::of(&sheet, &figures);
        let (found, known) = deadlines.plan(call).unwrap();
        assert_eq!(found.card.end, end);
        if let OnTime::From(at) = known {
            let later = deadlines.plan_ending(at, call).unwrap().expect("a plan that ends then");
            assert_eq!((later.card.end, deadlines.late_minutes(&later.card)), (at, 0));
        }
    }
}

/// Minutes that no mirrored sheet can say are left open, and nothing is too many.
#[test]
fn edges() {
    let job = |minutes, departure, arrival| Job { label_len: 1, modules: 1, minutes, departure, arrival, ..Job::default() };
    let ask = |jobs: Vec<Job>| {
        let figures = Reading { jobs, modules: 1, changeover: 30 };
        let list = Order::as_listed(figures.jobs.len()).sheet(&[b'x'; MOST_JOBS], &figures);
        let deadlines = Deadlines::of(&list, &figures);
        deadlines.plan(call).map(|(plan, known)| (plan.card.end, known)).unwrap()
    };
    assert_eq!(ask(vec![]), (0, OnTime::This));
    assert_eq!(ask(vec![job(1440, 0, 1440)]), (2880, OnTime::This), "it is late in every plan");
    assert_eq!(ask(vec![job(1440, 1440, 0), job(1440, 1440, 0)]), (2910, OnTime::NotBefore(2910)));
    assert_eq!(ask(vec![job(1440, 1470, 0), job(1440, 1470, 0)]), (2910, OnTime::Never));
    assert_eq!(ask(vec![job(1440, 2880, 0); MOST_JOBS]).0, 20 * 1440 + 19 * 30);
}
