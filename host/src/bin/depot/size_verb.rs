//! `depot size`: how large a cabinet a list asks for, so that the last bus is full by a minute. For whoever sells cabinets.
use crate::arguments::{Arguments, Takes};
use crate::clock::{whole, Clock};
use crate::files::Files;
use crate::outcome::{say, Outcome, Trouble};
use crate::plan_verb::{refused, Asked, Form};
use crate::planned::{labels, Yard};
use crate::style::Style;
use crate::{json, pointer, search};
use depot_host::{read, write, Card, Reading, Refusal, LONGEST_SHEET, MOST_MODULES};
use std::cmp::Ordering;
use std::fmt::Write;

const TAKES: Takes = Takes {
    verb: "size",
    flags: &["--raw", "--json"],
    values: &["--by", "--start", "--card", "--memory"],
    plain: &["a list or a sheet"],
    needed: 1,
    more: false,
};

const BY_ALLOWED: &str =
    "a minute counted from the start, 0 to 65535, or a time of day as 05:30 or 05:30+1 where the start is known";
/// How many counts on each side of the answer the table shows.
const BESIDE: u16 = 3;

/// The least count, and what is shown beside it.
struct Answer {
    modules: u16,
    by: u16,
    end: u16,
    reading: Reading,
    clock: Option<Clock>,
    /// The earliest end for some counts; none where a job needs more modules.
    ends: Vec<(u16, Option<u16>)>,
    /// A job that one module fewer has no room for.
    widest: Option<String>,
}

pub fn run(words: &[String]) -> Result<Outcome, Trouble> {
    let arguments = Arguments::read(&TAKES, words)?;
    let Asked { form, start, memory, .. } = Asked::by(&arguments)?;
    let files = Files::of(&arguments, &["--card"])?;
    let yard = Yard::open(arguments.plain(0).expect("a file is needed"), start)?;
    let by = arguments.read_value("--by", |word| minute(word, yard.clock), BY_ALLOWED)?;
    let by = by.ok_or_else(|| Trouble::usage("--by is missing: the minute by which the last bus is to be full", "size"))?;
    let (modules, card) = match search::size(&yard.sheet, by, memory) {
        Ok(found) => found,
        Err(Refusal::NoCountServes) if form == Form::Table => {
            pointer::tell(&yard.name, Refusal::NoCountServes, &pointer::too_late(&yard, by));
            return Ok(Outcome::Refused);
        }
        Err(refusal) => return refused(&yard, refusal, form),
    };
    files.write("--card", || card.clone())?;
    if form == Form::Raw {
        return say(&format!("{modules}\n"));
    }
    let reading = read(&yard.sheet).expect("a sheet that was sized reads");
    let ends = counts(modules, &reading).map(|count| (count, end_on(&yard, &reading, count, memory))).collect();
    let widest = too_wide_for(&yard, &reading, modules - 1);
    let answer = Answer {
        modules,
        by,
        end: Card::of(&card).expect("an answered call leaves a card").end,
        reading,
        clock: yard.clock,
        ends,
        widest,
    };
    files.then_say(|| if form == Form::Json { answer.in_json() } else { answer.in_words(Style::of_output()) })
}

/// The minute of a word: a number, or a time of day where the clock has a start.
fn minute(word: &str, clock: Option<Clock>) -> Option<u16> {
    let minute = if word.contains(':') { clock?.minute(word)? } else { whole(word).filter(|_| !word.is_empty())? };
    u16::try_from(minute).ok()
}

/// The counts of the table: those beside the answer, of those that are too few for a job one at most, and the list's own.
fn counts(modules: u16, reading: &Reading) -> impl Iterator<Item = u16> {
    let widest = reading.jobs.iter().map(|job| u16::from(job.modules)).max().unwrap_or(1);
    let near = modules.saturating_sub(BESIDE).max(widest - 1).max(1)..=(modules + BESIDE).min(MOST_MODULES);
    let own = reading.modules;
    let before = (own < *near.start()).then_some(own);
    let behind = (own > *near.end()).then_some(own);
    before.into_iter().chain(near).chain(behind)
}

/// The earliest end of the same jobs on so many modules; none where a job needs more.
fn end_on(Yard { sheet, clock, .. }: &Yard, reading: &Reading, modules: u16, memory: usize) -> Option<u16> {
    let labels: usize = reading.jobs.iter().map(|job| usize::from(job.label_len)).sum();
    let mut other = vec![0; LONGEST_SHEET];
    let length = write(&reading.jobs, &sheet[..labels], modules, reading.changeover, &mut other).expect("the jobs were read");
    match search::end_on(&other[..length], modules, memory, *clock) {
        Ok(end) => Some(end),
        Err(Refusal::OverWide) => None,
        Err(refusal) => panic!("on {modules} modules: {refusal}"),
    }
}

/// The first of the widest jobs, where it needs more modules than these.
fn too_wide_for(yard: &Yard, reading: &Reading, modules: u16) -> Option<String> {
    let widest = reading.jobs.iter().map(|job| job.modules).max().filter(|widest| u16::from(*widest) > modules)?;
    let job = reading.jobs.iter().position(|job| job.modules == widest)?;
    Some(format!("{} needs {widest}", labels(&yard.sheet, reading)[job]))
}

/// `1 minute`, `25 minutes`, `1 h 05 min`.
fn how_long(minutes: u16) -> String {
    match minutes {
        1 => "1 minute".into(),
        2..60 => format!("{minutes} minutes"),
        _ => format!("{} h {:02} min", minutes / 60, minutes % 60),
    }
}

impl Answer {
    /// The time of day of a minute, or the minute where the start is not known.
    fn time(&self, minute: u16) -> String {
        self.clock.map_or(format!("minute {minute}"), |clock| clock.time(minute.into()))
    }

    /// How an end lies to the minute that is asked for.
    fn beside(&self, end: u16) -> String {
        match end.cmp(&self.by) {
            Ordering::Less => format!("{} before", how_long(self.by - end)),
            Ordering::Equal => "just then".into(),
            Ordering::Greater => format!("{} after", how_long(end - self.by)),
        }
    }

    fn sentences(&self) -> String {
        let enough = if self.modules == 1 { "1 module is enough".into() } else { format!("{} modules are enough", self.modules) };
        let own = format!("(The list's own cabinet has {}.)", self.reading.modules);
        if self.reading.jobs.is_empty() {
            return format!("{enough}: there is nothing to charge. {own}\n");
        }
        let left = match self.beside(self.end).as_str() {
            "just then" => "just in time".into(),
            before => format!("{before} {}", self.time(self.by)),
        };
        let fewer = match &self.widest {
            _ if self.modules == 1 => String::new(),
            Some(job) => format!(" With {} there is no plan: {job}.", self.modules - 1),
            None => format!(" With {} no plan ends by then.", self.modules - 1),
        };
        format!("{enough}: the last bus is full at {}, {left}.{fewer} {own}\n", self.time(self.end))
    }

    /// The sentences, and a line for each count: the earliest end, and how it lies to the minute.
    fn in_words(&self, style: Style) -> String {
        let mut text = self.sentences();
        if self.reading.jobs.is_empty() {
            return text;
        }
        writeln!(text, "\n{}", style.quiet(&format!("modules  earliest end  to {}", self.time(self.by)))).unwrap();
        for (count, end) in &self.ends {
            let (end, beside) = match end {
                Some(end) => (self.time(*end), self.beside(*end)),
                None => ("no plan".into(), "a job needs more".into()),
            };
            let mut notes = Vec::new();
            notes.extend((*count == self.modules).then_some("the least that is enough"));
            notes.extend((*count == self.reading.modules).then_some("the list's own"));
            let line = format!("{count:>7}  {end:<12}  {beside:<18}  {}", notes.join(", "));
            let line = line.trim_end();
            writeln!(text, "{}", if *count == self.modules { style.bold(line) } else { line.into() }).unwrap();
        }
        text
    }

    fn in_json(&self) -> String {
        let mut members = vec![
            ("modules", self.modules.to_string()),
            ("own", self.reading.modules.to_string()),
            ("by", self.by.to_string()),
            ("end", self.end.to_string()),
            ("left", (self.by - self.end).to_string()),
        ];
        if let Some(clock) = self.clock {
            let time = |minute: u16| json::text(&clock.time(minute.into()));
            members.extend([("by_time", time(self.by)), ("end_time", time(self.end))]);
        }
        let end = |(count, end): &(u16, Option<u16>)| {
            let end = end.map_or("null".into(), |end| end.to_string());
            json::object(&[("modules", count.to_string()), ("end", end)])
        };
        members.push(("ends", json::list(self.ends.iter().map(end))));
        json::object(&members) + "\n"
    }
}

#[test]
fn words_of_minutes() {
    assert_eq!(
        [1, 2, 59, 60, 65, 600].map(how_long),
        ["1 minute", "2 minutes", "59 minutes", "1 h 00 min", "1 h 05 min", "10 h 00 min"]
    );
    assert_eq!([0, 65_535].map(|number: u32| minute(&number.to_string(), None)), [Some(0), Some(65_535)]);
    let clock = Clock::starting("21:30");
    assert_eq!(["05:30", "05:30+1", "21:30"].map(|word| minute(word, clock)), [Some(480), Some(480), Some(0)]);
    assert_eq!(["", "65536", "x", "05:30"].map(|word| minute(word, None)), [None; 4]);
    assert_eq!(["25:00", "05:30+50"].map(|word| minute(word, clock)), [None; 2]);
}
