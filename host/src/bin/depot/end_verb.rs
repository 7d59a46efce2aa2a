//! `depot end`: the earliest end of a list, in a sentence for a bid meeting.
use crate::clock::{how_long, Clock};
use crate::json;
use crate::outcome::{say, Outcome, Trouble};
use crate::plan_verb::{refused, Asked, Form};
use crate::planned::{counted, Yard};
use crate::search::{self, Ends};
use crate::waiting::Waiting;
use depot_host::read;

pub fn run(words: &[String]) -> Result<Outcome, Trouble> {
    let values = ["--start", "--within", "--memory"];
    let (Asked { form, memory, within, .. }, yard) = Asked::of_a_list("end", &["--raw", "--json"], &values, words)?;
    let mut waiting = Waiting::until(within, yard.clock);
    let ends = match search::end_until(&yard.sheet, memory, &mut waiting) {
        Ok(ends) => ends,
        Err(refusal) => return refused(&yard, refusal, form),
    };
    let Ends { end, bound } = ends;
    let unproved = (bound < end).then(|| not_shown(&yard, ends, &waiting.how_long()));
    if let Some(warning) = unproved.as_ref().filter(|_| form != Form::Table) {
        eprint!("{}: {warning}", yard.name);
    }
    say(&match form {
        Form::Table => unproved.unwrap_or_else(|| in_words(&yard, end)),
        Form::Raw => format!("{end}\n"),
        Form::Json => in_json(&yard, ends),
    })
}

/// The sentence: when the last bus is full, how long after the start, and of what that is the earliest end.
fn in_words(yard: &Yard, end: u16) -> String {
    let reading = read(&yard.sheet).expect("a sheet with an end reads");
    let size = counted(reading.jobs.len(), reading.modules, reading.changeover);
    if reading.jobs.is_empty() {
        return format!("There is nothing to charge: the plan of {size} ends at its start, minute 0.\n");
    }
    let after = format!("{} h {:02} min after the start", end / 60, end % 60);
    let when = yard.clock.map_or(after.clone(), |clock| format!("at {}, {after}", clock.time(end.into())));
    format!("The last bus is full {when} (minute {end}): no plan of {size} ends earlier.\n")
}

/// The sentence where the search was stopped before it was over.
fn not_shown(yard: &Yard, Ends { end, bound }: Ends, after: &str) -> String {
    let clock = yard.clock.unwrap_or(Clock::FROM_ZERO);
    let since = if yard.clock.is_some() { "" } else { " after the start" };
    let [best, none] = [end, bound].map(|minute| format!("{}{since} (minute {minute})", clock.time(minute.into())));
    let gap = how_long((end - bound).into());
    format!(
        "NOT SHOWN TO BE THE EARLIEST: after {after} of searching the best plan ends at {best}; no plan ends before {none}, so at most {gap} \
         can be gained.\n"
    )
}

fn in_json(yard: &Yard, Ends { end, bound }: Ends) -> String {
    let time = |name, minute: u16| yard.clock.map(|clock| (name, json::text(&clock.time(minute.into()))));
    let mut members = vec![("end", end.to_string())];
    members.extend(time("end_time", end));
    members.push(("exact", (bound == end).to_string()));
    if bound < end {
        members.push(("bound", bound.to_string()));
        members.extend(time("bound_time", bound));
    }
    json::object(&members) + "\n"
}
