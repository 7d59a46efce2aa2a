//! Families of job lists for the benchmark, from easy to hopeless.
use crate::lists::List;
use crate::random::Random;
use crate::raw_sheet::mark_earlier;
use crate::Job;
use std::ops::RangeInclusive;

type Make = Box<dyn Fn(&mut Random, usize) -> Vec<Job>>;

/// A way to make lists of a size.
pub struct Family {
    name: String,
    modules: u16,
    make: Make,
}

impl Family {
    pub fn name(&self) -> &str {
        &self.name
    }

    /// A list of n jobs, 1 or more, of its own for each seed.
    pub fn list(&self, seed: u64, n: usize) -> List {
        let mut random = Random::named(seed, &self.name);
        List { name: format!("{}#{seed}", self.name), modules: self.modules, changeover: 0, jobs: (self.make)(&mut random, n) }
    }

    /// The same list with buses that are on the road at the start.
    pub fn arriving(&self, seed: u64, n: usize, arrivals: Arrivals) -> List {
        let mut list = self.list(seed, n);
        let mut random = Random::named(seed, &format!("{} {}", self.name, arrivals.name()));
        let end = likely_end(&list);
        match arrivals {
            Arrivals::Waves => list.jobs.iter_mut().for_each(|job| job.arrival = random.pick(&[0, end / 4, end / 2])),
            Arrivals::Road => {
                let mut places: Vec<usize> = (0..n).collect();
                random.shuffle(&mut places);
                for place in &places[n.div_ceil(2)..] {
                    list.jobs[*place].arrival = random.between(0, end.into()) as u16;
                }
            }
        }
        list.name = format!("{}_{}", list.name, arrivals.name());
        list
    }
}

/// How the jobs of a list arrive.
#[derive(Clone, Copy, PartialEq, Eq)]
pub enum Arrivals {
    /// In three waves: at the start, and after a quarter and a half of the likely end.
    Waves,
    /// Half of the jobs are there at the start, the others come at any minute up to the likely end.
    Road,
}

impl Arrivals {
    pub const ALL: [Arrivals; 2] = [Arrivals::Waves, Arrivals::Road];

    pub fn name(self) -> &'static str {
        match self {
            Arrivals::Waves => "waves",
            Arrivals::Road => "road",
        }
    }
}

/// A minute before which no plan of the list ends, by its area and its longest job, if that is no more than the last arrival there is.
fn likely_end(list: &List) -> u16 {
    let area: u32 = list.jobs.iter().map(|job| u32::from(job.modules) * u32::from(job.minutes)).sum();
    let longest = list.jobs.iter().map(|job| job.minutes.into()).max().unwrap_or(0);
    area.div_ceil(list.modules.into()).max(longest).min(1440) as u16
}

type Figures = RangeInclusive<u32>;

fn draw(random: &mut Random, figures: &Figures) -> u32 {
    random.between(*figures.start(), *figures.end())
}

fn job(modules: u32, minutes: u32) -> Job {
    Job { modules: modules as u8, minutes: minutes as u16, ..Job::default() }
}

/// Jobs that wait for none.
fn independent(widths: Figures, minutes: Figures) -> impl Fn(&mut Random, usize) -> Vec<Job> {
    move |random, n| (0..n).map(|_| job(draw(random, &widths), draw(random, &minutes))).collect()
}

/// The same jobs with marks of earlier ones.
fn marked(make: impl Fn(&mut Random, usize) -> Vec<Job>, percent: u32) -> impl Fn(&mut Random, usize) -> Vec<Job> {
    move |random, n| {
        let mut jobs = make(random, n);
        mark_earlier(random, &mut jobs, percent);
        jobs
    }
}

/// So many chains side by side.
fn chains(widths: Figures, minutes: Figures, side_by_side: usize) -> impl Fn(&mut Random, usize) -> Vec<Job> {
    let make = independent(widths, minutes);
    move |random, n| {
        let mut jobs = make(random, n);
        for (j, job) in jobs.iter_mut().skip(side_by_side).enumerate() {
            job.earlier = 1 << j;
        }
        jobs
    }
}

/// Jobs in layers, each waiting for some of the layer before.
fn layered(widths: Figures, minutes: Figures, layers: usize) -> impl Fn(&mut Random, usize) -> Vec<Job> {
    let make = independent(widths, minutes);
    move |random, n| {
        let layer: Vec<usize> = (0..n).map(|_| random.place(layers)).collect();
        let mut jobs = make(random, n);
        for j in 0..n {
            for i in (0..n).filter(|i| layer[*i] + 1 == layer[j]) {
                jobs[j].earlier |= u32::from(random.percent(40)) << i;
            }
        }
        jobs
    }
}

/// Jobs of a few types.
fn of_types(types: usize, widths: Figures, minutes: Figures) -> impl Fn(&mut Random, usize) -> Vec<Job> {
    let make = independent(widths, minutes);
    move |random, n| {
        let types = make(random, types);
        (0..n).map(|_| random.pick(&types)).collect()
    }
}

/// A rectangle of all modules and 200 minutes, cut into jobs that fill it; then one of them may last a minute longer.
fn cut(modules: u32, one_longer: bool) -> impl Fn(&mut Random, usize) -> Vec<Job> {
    move |random, n| {
        let mut parts = vec![(modules, 200)];
        while parts.len() < n {
            parts.sort_by_key(|(width, minutes)| std::cmp::Reverse(width * minutes));
            let (width, minutes) = parts.remove(random.place(parts.len().min(4)));
            let across = width > 1 && (minutes < 2 || random.percent(50));
            if across {
                let first = random.between(1, width - 1);
                parts.extend([(first, minutes), (width - first, minutes)]);
            } else if minutes > 1 {
                let first = random.between(1, minutes - 1);
                parts.extend([(width, first), (width, minutes - first)]);
            } else {
                parts.push((width, minutes));
            }
        }
        random.shuffle(&mut parts);
        let mut jobs: Vec<Job> = parts.into_iter().map(|(width, minutes)| job(width, minutes)).collect();
        if one_longer {
            let longer = random.place(n);
            jobs[longer].minutes += 1;
        }
        jobs
    }
}

/// Half of the jobs need about half of the modules, the others less.
fn around_half(modules: u32) -> impl Fn(&mut Random, usize) -> Vec<Job> {
    let half = modules / 2;
    move |random, n| {
        let width = |random: &mut Random| {
            if random.percent(50) {
                random.between(half, half + 1)
            } else {
                random.between(1, half)
            }
        };
        (0..n).map(|_| job(width(random), random.between(1, 100))).collect()
    }
}

/// Jobs whose minutes are quarters of an hour.
fn in_quarters(random: &mut Random, n: usize) -> Vec<Job> {
    (0..n).map(|_| job(random.pick(&[2, 4, 4, 8]), 15 * random.between(2, 20))).collect()
}

/// The families whose lists are the hardest of their kind.
pub const HARD: [&str; 28] = [
    "ind_N2_d1440",
    "ind_N3_d100",
    "unitw_N3",
    "ind_N4_d10",
    "indH_N4",
    "ind_N5_d100",
    "ind_N8_d1440",
    "unitw_N8",
    "indH_N10",
    "ind_N16_d100",
    "ind_N64_d100",
    "third3_N5",
    "thirdplus_N8",
    "neq_N16",
    "halfplus_N64",
    "dag_N4_p10",
    "dag_N64_p5",
    "chains_N8_c10",
    "layer_N4_L5",
    "fewtypes_N64",
    "depot_N64",
    "depot_N16",
    "depot_N16r",
    "depot_N32",
    "depot_N16dag",
    "threepart_N6",
    "perfp_N10",
    "pairs_N9",
];

/// Buses as a yard has them: their modules, and a third or more of those behind the first eight wait for one that stands four places or
/// more in front.
fn of_a_yard(widths: &'static [u32], quarters: bool, waiting: u32) -> impl Fn(&mut Random, usize) -> Vec<Job> {
    move |random, n| {
        let minutes = |random: &mut Random| if quarters { 15 * random.between(3, 13) } else { random.between(35, 190) };
        let mut jobs: Vec<Job> = (0..n).map(|_| job(random.pick(widths), minutes(random))).collect();
        for (j, job) in jobs.iter_mut().enumerate().skip(8) {
            if random.percent(waiting) {
                job.earlier = 1 << random.place(j - 4);
            }
        }
        jobs
    }
}

/// The families of a yard's lists: nobody waits, some wait, more wait, and quarter hours.
pub fn yard() -> Vec<Family> {
    const NARROW: [u32; 8] = [1, 2, 2, 3, 4, 4, 6, 8];
    const WIDE: [u32; 9] = [2, 3, 4, 4, 6, 8, 8, 10, 12];
    let mut families = Vec::new();
    for (kind, waiting, quarters) in [("yard0", 0, false), ("yard1", 30, false), ("yard2", 60, false), ("yard3", 0, true)] {
        for (modules, widths) in [(16, &NARROW[..]), (32, &WIDE[..])] {
            families.push(Family {
                name: format!("{kind}_N{modules}"),
                modules,
                make: Box::new(of_a_yard(widths, quarters, waiting)),
            });
        }
    }
    families
}

/// Every family; N, the modules in the cabinet, is in the name.
pub fn all() -> Vec<Family> {
    let mut families = Vec::new();
    let mut add = |kind: &str, modules: u32, rest: &str, make: Make| {
        families.push(Family { name: format!("{kind}_N{modules}{rest}"), modules: modules as u16, make })
    };
    for modules in [2, 3, 4, 5, 8, 10, 16, 32, 64] {
        for longest in [10, 100, 1440] {
            add("ind", modules, &format!("_d{longest}"), Box::new(independent(1..=modules, 1..=longest)));
        }
        add("indH", modules, "", Box::new(independent(1..=modules / 2, 1..=100)));
        add("unitw", modules, "", Box::new(independent(1..=1, 1..=100)));
    }
    for modules in [4, 5, 8, 16, 64] {
        let third = modules / 3;
        add("neq", modules, "", Box::new(independent(1..=modules * 2 / 3, 95..=105)));
        add("halfplus", modules, "", Box::new(around_half(modules)));
        add("thirdplus", modules, "", Box::new(independent(third..=third + 1, 20..=100)));
        add("third3", modules, "", Box::new(independent(1.max(third - 1)..=third + 1, 30..=60)));
    }
    for modules in [2, 4, 8, 64] {
        for percent in [5, 10, 20, 40] {
            let make = independent(1..=1.max(modules * 2 / 3), 1..=50);
            add("dag", modules, &format!("_p{percent}"), Box::new(marked(make, percent)));
        }
    }
    for modules in [4, 8] {
        for side_by_side in [3, 5, 10] {
            let make = chains(1..=modules * 2 / 3, 1..=50, side_by_side);
            add("chains", modules, &format!("_c{side_by_side}"), Box::new(make));
        }
    }
    for layers in [3, 5, 8] {
        add("layer", 4, &format!("_L{layers}"), Box::new(layered(1..=4, 1..=20, layers)));
    }
    add("alleq", 7, "w2", Box::new(of_types(1, 2..=2, 5..=9)));
    add("alleq", 64, "w9", Box::new(of_types(1, 9..=9, 60..=60)));
    add("fewtypes", 10, "", Box::new(of_types(4, 1..=6, 10..=50)));
    add("fewtypes", 64, "", Box::new(of_types(5, 5..=40, 10..=50)));
    for modules in [16, 24, 32, 64] {
        add("depot", modules, "", Box::new(independent(1..=8, 30..=300)));
    }
    add("depot", 16, "r", Box::new(in_quarters));
    add("depot", 16, "dag", Box::new(marked(independent(1..=8, 30..=300), 5)));
    for modules in [5, 6, 7] {
        add("threepart", modules, "", Box::new(independent(1..=1, 26..=49)));
    }
    for modules in [6, 10, 20, 64] {
        add("perf", modules, "", Box::new(cut(modules, false)));
        add("perfp", modules, "", Box::new(cut(modules, true)));
    }
    for modules in [9, 10] {
        add("pairs", modules, "", Box::new(independent(1..=1, 50..=99)));
    }
    families
}

#[test]
fn arrivals_of_lists() {
    for family in all() {
        let list = family.list(1, 14);
        let end = likely_end(&list);
        let waves = family.arriving(1, 14, Arrivals::Waves);
        assert!(waves.jobs.iter().all(|job| [0, end / 4, end / 2].contains(&job.arrival)));
        let road = family.arriving(1, 14, Arrivals::Road);
        assert!(road.jobs.iter().filter(|job| job.arrival == 0).count() >= 7);
        assert!(road.jobs.iter().all(|job| job.arrival <= end) && end <= 1440);
        let without = |list: &List| list.jobs.iter().map(|job| Job { arrival: 0, ..*job }).collect::<Vec<_>>();
        assert!(without(&waves) == list.jobs && without(&road) == list.jobs);
    }
}

#[test]
fn the_hardest_are_among_all() {
    assert!(HARD.iter().all(|hard| all().iter().any(|family| family.name() == *hard)));
}

#[test]
fn every_family_makes_lists_that_read() {
    assert_eq!(all().len(), 113);
    for family in all().into_iter().chain(yard()) {
        for n in [1, 10, 20] {
            let sheet = crate::reference::reading::read(&family.list(1, n).sheet()).unwrap();
            assert_eq!(sheet.jobs.len(), n);
            assert!(sheet.jobs.iter().all(|job| job.modules <= sheet.modules));
        }
    }
}
