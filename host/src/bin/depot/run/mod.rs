//! `depot run`: a night minute by minute. A runner follows the plan on a share desk beside other controllers; every answer is the library's.
mod bars;
mod in_json;
mod night;
mod others;
mod page;
mod picture;
mod words;

use crate::arguments::{Arguments, Takes};
use crate::clock::whole;
use crate::desk::{named_controller, Place};
use crate::files::Files;
use crate::outcome::{say, Outcome, Trouble};
use crate::plan_verb::{not_planned, Asked, Form};
use crate::planned::{Planned, Yard};
use crate::style::Style;
use crate::waiting::Waiting;
use crate::{json, pointer};
use depot_host::{units, Desk, Refusal, MOST_POWER};
use night::{Feeder, Night};
use others::{Greedy, Others, Script};

const TAKES: Takes = Takes {
    verb: "run",
    flags: &["--json", "--by-line", "--on-time"],
    values: &[
        "--start",
        "--depot",
        "--date",
        "--size",
        "--limit",
        "--controller",
        "--script",
        "--seed",
        "--svg",
        "--html",
        "--within",
        "--memory",
    ],
    plain: &["a list or a sheet"],
    needed: 1,
    more: false,
};

/// Modules of 30 kW.
const SIZE: u32 = 300;

pub fn run(words: &[String]) -> Result<Outcome, Trouble> {
    let arguments = Arguments::read(&TAKES, words)?;
    let asked = Asked::by(&arguments)?;
    let form = asked.form;
    let files = Files::of(&arguments, &["--svg", "--html"])?;
    let kilowatts = |option| arguments.read_value(option, |word| units::power(word).ok(), "kW in whole hundreds of watts");
    let (size, limit) = (kilowatts("--size")?.unwrap_or(SIZE), kilowatts("--limit")?);
    let yard = Yard::open(arguments.plain(0).expect("a file is needed"), asked.start)?;
    let found = match asked.plan_until(&yard, false, &mut Waiting::until(asked.within, yard.clock)) {
        Ok(found) => found,
        Err(failed) => return not_planned(&yard, failed, form),
    };
    let (sheet, card) = (found.sheet.clone(), found.bytes.clone());
    let plan = Planned::new(&yard, found, &asked.heading);
    if let Some(warning) = plan.warning().filter(|_| form != Form::Table || files.takes_output()) {
        eprintln!("{}: {warning}", yard.name);
    }
    let (feeder, others) = match desk(&arguments, &plan, size, limit)? {
        Ok(opened) => opened,
        Err((refusal, why)) => return told(&yard.name, refusal, &why, form),
    };
    let night = match Night::play(&sheet, &card, plan, feeder, others) {
        Ok(night) => night,
        Err((refusal, why)) => return told(&yard.name, refusal, &why, form),
    };
    files.write("--svg", || picture::file(&night).into_bytes())?;
    files.write("--html", || page::text(&night).into_bytes())?;
    files.then_say(|| if form == Form::Json { in_json::text(&night) } else { words::text(&night, Style::of_output()) })?;
    Ok(if night.is_granted() { Outcome::Answered } else { Outcome::Refused })
}

/// A refusal with the sums behind it.
type Why = (Refusal, Vec<String>);

/// The desk of the night, opened, and who else calls on it.
fn desk(arguments: &Arguments, plan: &Planned, size: u32, limit: Option<u32>) -> Result<Result<(Feeder, Others), Why>, Trouble> {
    let seed = arguments.read_value("--seed", whole, "a number")?;
    let script = arguments.value("--script").map(|file| Script::read(file, plan)).transpose()?;
    let given = script.as_ref().and_then(|script| script.opening.clone());
    if let (Some(_), Some(_)) = (&given, limit) {
        return Err(Trouble::usage("--limit and a script that opens the desk exclude each other", "run"));
    }
    if let (Some(_), Some(_)) = (&script, seed) {
        return Err(Trouble::usage("--seed and --script exclude each other", "run"));
    }
    let (limit, places) = given.unwrap_or_else(|| usual_desk(u32::from(plan.modules).saturating_mul(size), limit));
    let names: Vec<String> = places.iter().map(|place| place.name.clone()).collect();
    let own = match arguments.value("--controller") {
        Some(word) => {
            named_controller(word, &names).map_err(|why| Trouble::usage(format!("--controller: {why}"), "run"))? as usize
        }
        None => 0,
    };
    let (assured, ceilings): (Vec<u32>, Vec<u32>) = places.iter().map(|place| (place.assured, place.ceiling)).unzip();
    let others = script.map_or_else(|| Others::Greedy(Greedy::new(seed.unwrap_or(1).into())), Others::Script);
    Ok(match Desk::open(limit, &assured, &ceilings) {
        Ok(opened) => Ok((Feeder { names, own, size, opened }, others)),
        Err(refusal) => Err((refusal, crate::desk::why_not_opened(limit, &places, refusal))),
    })
}

/// The desk where none is given: the yard is assured of what its plan needs, a neighbour of a quarter of it, and the feeder carries half
/// as much again.
fn usual_desk(need: u32, limit: Option<u32>) -> (u32, Vec<Place>) {
    let limit = limit.unwrap_or(need.saturating_add(need / 2).clamp(1, MOST_POWER));
    let share = need.min(limit);
    let place = |name: &str, assured: u32| Place { name: name.into(), assured, ceiling: limit };
    (limit, vec![place("yard", share), place("neighbour", (need / 4).min(limit - share))])
}

/// Says why there is no night.
fn told(file: &str, refusal: Refusal, why: &[String], form: Form) -> Result<Outcome, Trouble> {
    if form == Form::Json {
        say(&(json::refusal(refusal) + "\n"))?;
    } else {
        pointer::tell(file, refusal, why);
    }
    Ok(Outcome::Refused)
}
