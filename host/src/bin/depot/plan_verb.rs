//! `depot plan`: from a list or a sheet to the plan, as a table, lines, JSON, a picture, a page, a card.
use crate::arguments::{Arguments, Takes};
use crate::clock::{Clock, START_ALLOWED};
use crate::files::Files;
use crate::heading::Heading;
use crate::outcome::{say, Outcome, Trouble};
use crate::planned::{Planned, Yard};
use crate::search::{By, Failed, Found};
use crate::style::Style;
use crate::waiting::{self, Waiting};
use crate::{chart, json, lateness, page, plan_csv, plan_json, plan_text, pointer, search, wall, work_list};
use depot_host::{units, Refusal};
use std::time::Duration;

const TAKES: Takes = Takes {
    verb: "plan",
    flags: &["--raw", "--json", "--work", "--by-line", "--on-time"],
    values: &[
        "--start", "--depot", "--date", "--svg", "--html", "--wall", "--now", "--csv", "--card", "--sheet", "--within",
        "--memory",
    ],
    plain: &["a list or a sheet"],
    needed: 1,
    more: false,
};

/// The search's working memory where none is asked for, and the most that may be.
const MEMORY: usize = 16 << 20;
const MOST_MEMORY: usize = 16 << 30;
const MEMORY_ALLOWED: &str = "0 to 16G, in bytes or with K, M or G behind the number";

/// So many searches run at the same time.
const SEARCHES: usize = 2;

/// What is printed on standard output.
#[derive(Clone, Copy, PartialEq, Eq)]
pub enum Form {
    Table,
    Raw,
    Json,
}

pub fn run(words: &[String]) -> Result<Outcome, Trouble> {
    let arguments = Arguments::read(&TAKES, words)?;
    let asked = Asked::by(&arguments)?;
    let files = Files::of(&arguments, &["--sheet", "--card", "--svg", "--html", "--wall", "--csv"])?;
    if arguments.value("--now").is_some() && arguments.value("--wall").is_none() {
        return Err(Trouble::usage("--now goes with --wall", arguments.verb()));
    }
    let yard = Yard::open(arguments.plain(0).expect("a file is needed"), asked.start)?;
    let now = wall::now(&arguments, &yard)?;
    let with_slack = asked.form != Form::Raw || ["--html", "--csv"].iter().any(|file| arguments.value(file).is_some());
    let found = match asked.plan_until(&yard, with_slack, &mut Waiting::until(asked.within, yard.clock)) {
        Ok(found) => found,
        Err(failed) => return not_planned(&yard, failed, asked.form),
    };
    let (sheet, bytes) = (found.sheet.clone(), found.bytes.clone());
    let plan = Planned::new(&yard, found, &asked.heading);
    if let Some(warning) = plan.warning().filter(|_| asked.form != Form::Table || files.takes_output()) {
        eprintln!("{}: {warning}", yard.name);
    }
    if plan.bound().is_some() && arguments.value("--sheet").is_some() {
        eprintln!("{}: a cabinet that plans this sheet may come to another plan", yard.name);
    }
    files.write("--sheet", || sheet)?;
    files.write("--card", || bytes)?;
    files.write("--svg", || chart::file(&plan).into_bytes())?;
    files.write("--html", || page::text(&plan).into_bytes())?;
    files.write("--wall", || wall::text(&plan, now).into_bytes())?;
    files.write("--csv", || plan_csv::text(&plan).into_bytes())?;
    files.then_say(|| match asked.form {
        Form::Table if arguments.has("--work") => work_list::text(&plan, Style::of_output()),
        Form::Table => plan_text::table(&plan, Style::of_output()),
        Form::Raw => plan_text::raw(&plan),
        Form::Json => plan_json::text(&plan),
    })
}

/// What is asked of a verb that searches: the form of its answer, a start in place of the list's, and the search's working memory.
pub struct Asked {
    pub form: Form,
    pub start: Option<Clock>,
    pub memory: usize,
    /// How long the search is waited for at most.
    pub within: Option<Duration>,
    pub heading: Heading,
    by: Option<By>,
}

impl Asked {
    pub fn by(arguments: &Arguments) -> Result<Asked, Trouble> {
        let form = form(arguments)?;
        let start = arguments.read_value("--start", Clock::starting, START_ALLOWED)?;
        let bytes = |word: &str| units::bytes(word).filter(|bytes| *bytes <= MOST_MEMORY);
        let memory = arguments.read_value("--memory", bytes, MEMORY_ALLOWED)?.unwrap_or(MEMORY);
        if Vec::<u8>::new().try_reserve_exact(SEARCHES * memory).is_err() {
            return Err(Trouble::usage("--memory: this machine does not give so much", arguments.verb()));
        }
        let by = match (arguments.has("--by-line"), arguments.has("--on-time")) {
            (true, true) => return Err(Trouble::usage("--by-line and --on-time exclude each other", arguments.verb())),
            (true, false) => Some(By::Line),
            (false, true) => Some(By::OnTime),
            (false, false) => None,
        };
        let within = arguments.read_value("--within", waiting::seconds, waiting::WITHIN_ALLOWED)?;
        Ok(Asked { form, start, memory, within, heading: Heading::by(arguments)?, by })
    }

    /// The plan of a yard: where nothing else is asked for that of a list by its departures, and a sheet as it is.
    pub fn plan(&self, yard: &Yard, with_slack: bool) -> Result<Found, Failed> {
        self.plan_until(yard, with_slack, &mut Waiting::for_ever(yard.clock))
    }

    /// The same; where it is waited for no longer the best plan so far.
    pub fn plan_until(&self, yard: &Yard, with_slack: bool, waiting: &mut Waiting) -> Result<Found, Failed> {
        let usual = if yard.is_list() { By::Departure } else { By::Line };
        search::run(&yard.sheet, self.by.unwrap_or(usual), self.memory, with_slack, waiting)
    }

    /// What is asked of a verb that takes one list, these flags and options; and the list.
    pub fn of_a_list(verb: &str, flags: &[&str], values: &[&str], words: &[String]) -> Result<(Asked, Yard), Trouble> {
        let takes = Takes { verb, flags, values, plain: &["a list or a sheet"], needed: 1, more: false };
        let arguments = Arguments::read(&takes, words)?;
        let asked = Asked::by(&arguments)?;
        let yard = Yard::open(arguments.plain(0).expect("a file is needed"), asked.start)?;
        Ok((asked, yard))
    }
}

/// The form that is asked for on the verb's command line.
pub fn form(arguments: &Arguments) -> Result<Form, Trouble> {
    let forms = [("--raw", Form::Raw), ("--json", Form::Json), ("--work", Form::Table)];
    let asked: Vec<(&str, Form)> = forms.into_iter().filter(|(option, _)| arguments.has(option)).collect();
    match asked[..] {
        [] => Ok(Form::Table),
        [(_, form)] => Ok(form),
        [(one, _), (other, _), ..] => Err(Trouble::usage(format!("{one} and {other} exclude each other"), arguments.verb())),
    }
}

/// Says why there is no plan to show.
pub fn not_planned(yard: &Yard, failed: Failed, form: Form) -> Result<Outcome, Trouble> {
    match failed {
        Failed::Refused(refusal) => refused(yard, refusal, form),
        Failed::Late(known) => {
            eprintln!("{}: {}", yard.name, lateness::of_none(yard, known));
            Ok(Outcome::Refused)
        }
        Failed::Stopped(after) => {
            eprintln!("{}: no plan in which nobody is late was found in {after} of searching", yard.name);
            Ok(Outcome::Refused)
        }
    }
}

/// Says a refusal in this form.
pub fn refused(yard: &Yard, refusal: Refusal, form: Form) -> Result<Outcome, Trouble> {
    match form {
        Form::Raw => say(&format!("refused {}\n", refusal.number()))?,
        Form::Json => say(&(json::refusal(refusal) + "\n"))?,
        Form::Table => {
            pointer::tell(&yard.name, refusal, &pointer::lines(yard, refusal));
            Outcome::Refused
        }
    };
    Ok(Outcome::Refused)
}
