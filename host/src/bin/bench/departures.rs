//! Who is late, by the order in which jobs stand on the sheet: as they are drawn, by departure, and as mirrored lists say.
use crate::options::Options;
use depot_host::families;
use depot_host::on_time::{Deadlines, OnTime, Plan};
use depot_host::random::Random;
use depot_host::{card_length, plan, read, Card, Job, Reading, Refusal};

/// Lists of the families of depots, of so many buses and seeds.
const FAMILY: &str = "depot";
const BUSES: usize = 14;
const SEEDS: u64 = 8;

/// How many buses are late, by how many minutes, and in how many nights.
#[derive(Default)]
struct Late {
    buses: usize,
    minutes: u32,
    nights: usize,
}

impl Late {
    fn add(&mut self, figures: &Reading, card: &Card) {
        let late =
            figures.jobs.iter().zip(&card.rows).map(|(job, row)| row.end.saturating_sub(job.departure)).filter(|late| *late > 0);
        let late: Vec<u16> = late.collect();
        self.buses += late.len();
        self.minutes += late.iter().map(|late| u32::from(*late)).sum::<u32>();
        self.nights += usize::from(!late.is_empty());
    }

    fn tell(&self, order: &str) {
        println!("{order:<28} {:>6} {:>8} {:>7}", self.buses, self.minutes, self.nights);
    }
}

pub fn measure(options: &Options) {
    let memory = options.memory_or(&[1 << 20])[0];
    let call = |sheet: &[u8]| -> Result<Vec<u8>, Refusal> {
        let mut card = vec![0; card_length(read(sheet)?.jobs.len())];
        plan(sheet, &mut card, &mut vec![0; memory]).map(|()| card)
    };
    let [mut drawn, mut by_departure, mut mirrored] = [Late::default(), Late::default(), Late::default()];
    let [mut lists, mut from, mut later, mut never] = [0, 0, 0, 0];
    for family in families::all().iter().filter(|family| family.name().starts_with(FAMILY)) {
        for seed in 1..=SEEDS {
            let mut list = family.list(seed, BUSES);
            let end = Card::of(&call(&list.sheet()).expect("a plan")).expect("a card").end;
            draw_departures(&mut Random::named(seed, &format!("{} departures", family.name())), &mut list.jobs, end);
            let sheet = list.sheet();
            let figures = read(&sheet).expect("a sheet");
            let as_listed = Plan::as_listed(&sheet, call(&sheet).expect("a plan"));
            let mut first = None;
            let deadlines = Deadlines::of(&sheet, &figures);
            let mut keep = |sheet: &[u8], card: &[u8]| {
                first.get_or_insert_with(|| (sheet.to_vec(), card.to_vec()));
            };
            let planned = deadlines.plan(|sheet| call(sheet).inspect(|card| keep(sheet, card)));
            let (best, known) = planned.expect("a plan");
            let (first_sheet, first_card) = first.expect("a first call");
            let first_card = Card::of(&first_card).expect("a card");
            assert!(as_listed.card.end == end && first_card.end == end && best.card.end == end, "{}", list.name);
            drawn.add(&figures, &as_listed.card);
            by_departure.add(&read(&first_sheet).expect("a sheet"), &first_card);
            mirrored.add(&figures, &best.card);
            lists += 1;
            match known {
                OnTime::From(at) => {
                    from += 1;
                    later += u32::from(at - end);
                }
                OnTime::Never => never += 1,
                OnTime::This => {}
                OnTime::NotBefore(_) => unreachable!("no bus is on the road"),
            }
        }
    }
    println!("{lists} lists of {BUSES} buses, families {FAMILY}*, departures at random; all orders have the same end");
    println!("{:<28} {:>6} {:>8} {:>7}", "order", "buses", "minutes", "nights");
    drawn.tell("as the jobs are drawn");
    by_departure.tell("by departure");
    mirrored.tell("by departure, or mirrored");
    println!(
        "nobody late is possible at a later end in {from} more nights, {later} minutes later in all, and in {never} at no end"
    );
}

/// Departures at any quarter of an hour between a job's own minutes, or half of the plan's end where that is later, and one and a half
/// times the end.
fn draw_departures(random: &mut Random, jobs: &mut [Job], end: u16) {
    for job in jobs {
        let low = u32::from(job.minutes.max(end / 2)).div_ceil(15);
        let high = (u32::from(end) * 3 / 2 / 15).max(low);
        job.departure = (15 * random.between(low, high)).min(2880) as u16;
    }
}
