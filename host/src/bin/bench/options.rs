//! What the command line asks for.
use crate::picture::TINTS;
use depot_host::families::{self, Arrivals, Family, HARD};
use depot_host::{lists, lists::List, units};
use std::fs;
use std::time::Duration;

#[derive(Clone, Copy, PartialEq, Eq)]
pub enum Part {
    Plans,
    Ends,
    Sizes,
    Departures,
    Arrivals,
    Changeovers,
    Ablation,
    Gecode,
    Stack,
    Sheets,
    Desk,
}

/// Lists that share a line of the table.
pub struct Group {
    pub name: String,
    pub lists: Vec<List>,
}

pub struct Options {
    pub parts: Vec<Part>,
    pub groups: Vec<Group>,
    /// Those whose jobs arrive later.
    pub arriving: Vec<Group>,
    /// Those whose modules rest between two jobs.
    pub resting: Vec<Group>,
    memory: Option<Vec<usize>>,
    pub cutoff: Duration,
    pub limit: u64,
    pub each: bool,
    pub bare: bool,
    pub svg: Option<String>,
}

/// Sizes and seed of the lists where none are asked for; those with arrivals or a changeover have a seed on which nothing was tuned.
const SIZES: [usize; 2] = [10, 12];
const SEED: u64 = 1;
const FRESH_SIZES: [usize; 3] = [14, 16, 20];
const FRESH_SEED: u64 = 8_117;
const CHANGEOVERS: [u16; 2] = [5, 10];

/// Which families lists are made of.
#[derive(Clone, Copy, PartialEq, Eq)]
enum Kind {
    All,
    Hard,
    Yard,
}

/// What is read before the lists are made.
struct Asked {
    sizes: Option<Vec<usize>>,
    family: String,
    kind: Kind,
    seed: Option<u64>,
    seeds: u64,
    file: Option<String>,
    changeovers: Vec<u16>,
}

impl Options {
    /// The options, none where help is asked for, or why they cannot be.
    pub fn read(words: &[String]) -> Result<Option<Options>, String> {
        let mut options = Options {
            parts: Vec::new(),
            groups: Vec::new(),
            arriving: Vec::new(),
            resting: Vec::new(),
            memory: None,
            cutoff: Duration::from_secs(1),
            limit: 300_000,
            each: false,
            bare: false,
            svg: None,
        };
        let mut asked = Asked {
            sizes: None,
            family: String::new(),
            kind: Kind::All,
            seed: None,
            seeds: 1,
            file: None,
            changeovers: CHANGEOVERS.to_vec(),
        };
        let mut words = words.iter();
        while let Some(word) = words.next() {
            let mut value = || words.next().ok_or(format!("{word} needs a value"));
            match word.as_str() {
                "plans" => options.parts.push(Part::Plans),
                "arrivals" => options.parts.push(Part::Arrivals),
                "changeovers" => options.parts.push(Part::Changeovers),
                "ends" => options.parts.push(Part::Ends),
                "sizes" => options.parts.push(Part::Sizes),
                "departures" => options.parts.push(Part::Departures),
                "ablation" => options.parts.push(Part::Ablation),
                "gecode" => options.parts.push(Part::Gecode),
                "stack" => options.parts.push(Part::Stack),
                "sheets" => options.parts.push(Part::Sheets),
                "desk" => options.parts.push(Part::Desk),
                "--sizes" => asked.sizes = Some(numbers(value()?, size)?),
                "--family" => asked.family = value()?.clone(),
                "--hard" => asked.kind = Kind::Hard,
                "--yard" => asked.kind = Kind::Yard,
                "--seeds" => asked.seeds = value()?.parse().map_err(|_| "--seeds takes a number")?,
                "--seed" => asked.seed = Some(value()?.parse().map_err(|_| "--seed takes a number")?),
                "--changeovers" => asked.changeovers = numbers(value()?, minutes)?,
                "--lists" => asked.file = Some(value()?.clone()),
                "--memory" => options.memory = Some(numbers(value()?, units::bytes)?),
                "--cutoff" => options.cutoff = seconds(value()?).ok_or("--cutoff takes seconds above 0")?,
                "--limit" => options.limit = value()?.parse().map_err(|_| "--limit takes a number")?,
                "--full" => asked.sizes = Some(vec![10, 12, 14, 16, 20]),
                "--svg" => options.svg = Some(value()?.clone()),
                "--each" => options.each = true,
                "--bare" => options.bare = true,
                "--help" | "-h" => return Ok(None),
                _ => return Err(format!("{word} is no part and no option")),
            }
        }
        if options.svg.is_some() && options.memory.as_ref().is_some_and(|lengths| lengths.len() > TINTS) {
            return Err(format!("--svg shows at most {TINTS} lengths of the working memory"));
        }
        if options.parts.is_empty() {
            options.parts = vec![Part::Plans, Part::Stack, Part::Sheets, Part::Desk];
        }
        if options.parts.iter().any(|part| matches!(part, Part::Plans | Part::Ends | Part::Sizes | Part::Ablation | Part::Gecode))
        {
            options.groups = asked.groups()?;
        }
        if options.parts.contains(&Part::Arrivals) {
            options.arriving = asked.arriving()?;
        }
        if options.parts.contains(&Part::Changeovers) {
            options.resting = asked.resting()?;
        }
        Ok(Some(options))
    }

    /// The lengths of the working memory: those that are asked for, or a part's own.
    pub fn memory_or(&self, usual: &[usize]) -> Vec<usize> {
        self.memory.clone().unwrap_or(usual.to_vec())
    }
}

impl Asked {
    fn groups(&self) -> Result<Vec<Group>, String> {
        if let Some(file) = &self.file {
            return Ok(vec![self.of_file(file)?]);
        }
        let families = self.families()?;
        let seed = self.seed.unwrap_or(SEED);
        let group = |n: usize| {
            let lists =
                (seed..seed + self.seeds).flat_map(|seed| families.iter().map(move |family| family.list(seed, n))).collect();
            Group { name: format!("n = {n}"), lists }
        };
        Ok(self.sizes.clone().unwrap_or(SIZES.to_vec()).into_iter().map(group).collect())
    }

    /// Lists whose jobs arrive later; those of a file have arrivals of their own.
    fn arriving(&self) -> Result<Vec<Group>, String> {
        if let Some(file) = &self.file {
            return Ok(vec![self.of_file(file)?]);
        }
        let families = self.families()?;
        let seed = self.seed.unwrap_or(FRESH_SEED);
        let group = |arrivals: Arrivals, n: usize| {
            let lists = families.iter().map(|family| family.arriving(seed, n, arrivals)).collect();
            Group { name: format!("{}, n = {n}", arrivals.name()), lists }
        };
        let sizes = self.sizes.clone().unwrap_or(FRESH_SIZES.to_vec());
        Ok(Arrivals::ALL
            .into_iter()
            .flat_map(|arrivals| sizes.iter().map(move |n| (arrivals, *n)))
            .map(|(a, n)| group(a, n))
            .collect())
    }

    /// Lists with each of the changeovers; those of a file have their own.
    fn resting(&self) -> Result<Vec<Group>, String> {
        if let Some(file) = &self.file {
            return Ok(vec![self.of_file(file)?]);
        }
        let families = self.families()?;
        let seed = self.seed.unwrap_or(FRESH_SEED);
        let sizes = self.sizes.clone().unwrap_or(FRESH_SIZES.to_vec());
        let group = |(changeover, n): (u16, usize)| {
            let lists = families.iter().map(|family| family.list(seed, n).resting(changeover)).collect();
            Group { name: format!("rest {changeover}, n = {n}"), lists }
        };
        Ok(self.changeovers.iter().flat_map(|changeover| sizes.iter().map(|n| (*changeover, *n))).map(group).collect())
    }

    fn has_family(&self, name: &str) -> bool {
        name.contains(&self.family)
    }

    fn of_file(&self, file: &str) -> Result<Group, String> {
        let text = fs::read_to_string(file).map_err(|why| format!("{file}: {why}"))?;
        let mut lists = lists::read(&text).map_err(|why| format!("{file}: {why}"))?;
        lists.retain(|list| self.has_family(&list.name));
        Ok(Group { name: file.rsplit('/').next().unwrap_or(file).to_string(), lists })
    }

    fn families(&self) -> Result<Vec<Family>, String> {
        let mut families = if self.kind == Kind::Yard { families::yard() } else { families::all() };
        families.retain(|family| self.has_family(family.name()) && (self.kind != Kind::Hard || HARD.contains(&family.name())));
        if families.is_empty() {
            return Err(format!("no family's name has '{}'", self.family));
        }
        Ok(families)
    }
}

fn numbers<T>(words: &str, one: fn(&str) -> Option<T>) -> Result<Vec<T>, String> {
    words.split(',').map(|word| one(word).ok_or(format!("'{word}' is out of place"))).collect()
}

fn size(word: &str) -> Option<usize> {
    word.parse().ok().filter(|n| (1..=depot_host::MOST_JOBS).contains(n))
}

fn minutes(word: &str) -> Option<u16> {
    word.parse().ok().filter(|minutes| (0..=30).contains(minutes))
}

fn seconds(word: &str) -> Option<Duration> {
    let seconds: f64 = word.parse().ok()?;
    Duration::try_from_secs_f64(seconds).ok().filter(|duration| !duration.is_zero())
}
