//! `depot use`: how much of the cabinet the plans of lists use, for the monthly sheet.
use crate::arguments::{Arguments, Takes};
use crate::outcome::{say, Outcome, Trouble};
use crate::outlook::in_groups;
use crate::plan_text::{self, Column};
use crate::plan_verb::{refused, Asked, Form};
use crate::planned::Yard;
use crate::{json, pointer, search};
use depot_host::{read, Refusal};

const TAKES: Takes = Takes {
    verb: "use",
    flags: &["--raw", "--json"],
    values: &["--start", "--memory"],
    plain: &["a list or a sheet"],
    needed: 1,
    more: true,
};

/// How much of a cabinet is used: of so many module-minutes so many are occupied.
#[derive(Clone, Copy, Debug, PartialEq, Eq)]
struct Share {
    per_mille: u64,
    remainder: u64,
    occupied: u64,
    all: u64,
}

impl Share {
    /// The library's answer for a sheet. The module-minutes follow from it: those that are occupied are the modules times the minutes of
    /// each job, and a thousand times these are the per mille times all plus the remainder. Where the per mille is 0 that does not say
    /// how many there are; then the end is asked for.
    fn of(Yard { sheet, clock, .. }: &Yard, memory: usize) -> Result<Share, Refusal> {
        let usage = search::usage(sheet, memory, *clock)?;
        let (per_mille, remainder) = (u64::from(usage.per_mille), u64::from(usage.remainder));
        let reading = read(sheet)?;
        let occupied = reading.jobs.iter().map(|job| u64::from(job.modules) * u64::from(job.minutes)).sum();
        let all = match per_mille {
            0 => u64::from(reading.modules) * u64::from(search::end_on(sheet, reading.modules, memory, *clock)?),
            _ => (1000 * occupied - remainder) / per_mille,
        };
        Ok(Share { per_mille, remainder, occupied, all })
    }

    /// The share of all cabinets together, none where there is no cabinet.
    fn in_all(shares: &[Share]) -> Option<Share> {
        let occupied: u64 = shares.iter().map(|share| share.occupied).sum();
        let all: u64 = shares.iter().map(|share| share.all).sum();
        (all > 0).then(|| Share { per_mille: 1000 * occupied / all, remainder: 1000 * occupied % all, occupied, all })
    }

    fn percent(&self) -> String {
        format!("{}.{} %", self.per_mille / 10, self.per_mille % 10)
    }

    fn in_words(&self) -> String {
        let Share { per_mille, remainder, occupied, all } = *self;
        format!(
            "{} of the cabinet was charging ({per_mille} per mille, remainder {}): {} of {} module-minutes.\n",
            self.percent(),
            in_groups(remainder),
            in_groups(occupied),
            in_groups(all)
        )
    }

    fn members(&self) -> Vec<(&'static str, String)> {
        let figures = [self.per_mille, self.remainder, self.occupied, self.all];
        ["per_mille", "remainder", "occupied", "of"].into_iter().zip(figures.map(|figure| figure.to_string())).collect()
    }

    fn cells(&self) -> [String; 5] {
        let Share { per_mille, remainder, occupied, all } = *self;
        [self.percent(), in_groups(per_mille), in_groups(remainder), in_groups(occupied), in_groups(all)]
    }
}

type Answer = Result<Share, Refusal>;

pub fn run(words: &[String]) -> Result<Outcome, Trouble> {
    let arguments = Arguments::read(&TAKES, words)?;
    let Asked { form, start, memory, .. } = Asked::by(&arguments)?;
    let yards = arguments.all_plain().iter().map(|file| Yard::open(file, start)).collect::<Result<Vec<_>, _>>()?;
    let answers: Vec<Answer> = yards.iter().map(|yard| Share::of(yard, memory)).collect();
    match (&yards[..], &answers[..]) {
        ([yard], [Err(refusal)]) => refused(yard, *refusal, form),
        ([_], [Ok(share)]) => say(&of_one(share, form)),
        _ => of_several(&yards, &answers, form),
    }
}

fn of_one(share: &Share, form: Form) -> String {
    match form {
        Form::Table => share.in_words(),
        Form::Raw => raw(&Ok(*share)),
        Form::Json => json::object(&share.members()) + "\n",
    }
}

/// Several lists: a line or an object each. Lists that are refused are told behind the table, and count for nothing in the total.
fn of_several(yards: &[Yard], answers: &[Answer], form: Form) -> Result<Outcome, Trouble> {
    let total = Share::in_all(&answers.iter().flatten().copied().collect::<Vec<_>>());
    say(&match form {
        Form::Table => table(yards, answers, total),
        Form::Raw => answers.iter().map(raw).collect(),
        Form::Json => in_json(yards, answers, total),
    })?;
    let faults = yards.iter().zip(answers).filter_map(|(yard, answer)| Some((yard, answer.err()?)));
    let mut outcome = Outcome::Answered;
    for (yard, refusal) in faults {
        outcome = Outcome::Refused;
        if form == Form::Table {
            pointer::tell(&yard.name, refusal, &pointer::lines(yard, refusal));
        }
    }
    Ok(outcome)
}

/// The two figures alone.
fn raw(answer: &Answer) -> String {
    match answer {
        Ok(share) => format!("{} {}\n", share.per_mille, share.remainder),
        Err(refusal) => format!("refused {}\n", refusal.number()),
    }
}

fn table(yards: &[Yard], answers: &[Answer], total: Option<Share>) -> String {
    let heads = ["list", "charging", "per mille", "remainder", "occupied", "module-minutes"].map(String::from).to_vec();
    let line = |name: &str, answer: &Answer| {
        let cells = match answer {
            Ok(share) => share.cells(),
            Err(refusal) => [format!("refused {}", refusal.number()), String::new(), String::new(), String::new(), String::new()],
        };
        [vec![name.to_string()], cells.to_vec()].concat()
    };
    let mut lines = vec![heads];
    lines.extend(yards.iter().zip(answers).map(|(yard, answer)| line(&yard.name, answer)));
    lines.extend(total.map(|share| line("total", &Ok(share))));
    let column = |place: usize| Column { cells: lines.iter().map(|line| line[place].clone()).collect(), right: place > 0 };
    let columns: Vec<Column> = (0..6).map(column).collect();
    plan_text::lines(&columns).iter().map(|line| format!("{line}\n")).collect()
}

fn in_json(yards: &[Yard], answers: &[Answer], total: Option<Share>) -> String {
    let entry = |(yard, answer): (&Yard, &Answer)| {
        let mut members = vec![("list", json::text(&yard.name))];
        match answer {
            Ok(share) => members.extend(share.members()),
            Err(refusal) => members.extend(json::refusal_members(*refusal)),
        }
        json::object(&members)
    };
    let mut members = vec![("lists", json::list(yards.iter().zip(answers).map(entry)))];
    members.extend(total.map(|share| ("total", json::object(&share.members()))));
    json::object(&members) + "\n"
}

#[test]
fn totals_are_those_of_the_module_minutes() {
    let share = |occupied: u64, all: u64| Share::in_all(&[Share { per_mille: 0, remainder: 0, occupied, all }]);
    let (small, large) = (share(1, 1).unwrap(), share(1, 3).unwrap());
    assert_eq!((small.per_mille, small.remainder), (1000, 0));
    assert_eq!((large.per_mille, large.remainder, large.percent()), (333, 1, "33.3 %".into()));
    assert_eq!(Share::in_all(&[small, large]), Some(Share { per_mille: 500, remainder: 0, occupied: 2, all: 4 }));
    assert_eq!(Share::in_all(&[]), None);
}
