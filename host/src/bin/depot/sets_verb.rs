//! `depot sets`: how many sets of jobs a part-plan of a list can hold, without planning.
use crate::arguments::{Arguments, Takes};
use crate::json;
use crate::outcome::{say, Outcome, Trouble};
use crate::outlook::{Outlook, LISTS};
use crate::plan_verb::{form, refused, Form};
use crate::planned::Yard;

const TAKES: Takes =
    Takes { verb: "sets", flags: &["--raw", "--json"], values: &[], plain: &["a list or a sheet"], needed: 1, more: false };

pub fn run(words: &[String]) -> Result<Outcome, Trouble> {
    let arguments = Arguments::read(&TAKES, words)?;
    let form = form(&arguments)?;
    let yard = Yard::open(arguments.plain(0).expect("a file is needed"), None)?;
    let outlook = match Outlook::of(&yard.sheet) {
        Ok(outlook) => outlook,
        Err(refusal) => return refused(&yard, refusal, form),
    };
    say(&match form {
        Form::Table => format!("{}\n{}\n", outlook.sets_in_words(), outlook.benchmark_in_words()),
        Form::Raw => format!("{}\n", outlook.sets),
        Form::Json => in_json(&outlook),
    })
}

fn in_json(outlook: &Outlook) -> String {
    let (size, planned) = outlook.benchmark();
    let benchmark = [("jobs", size.to_string()), ("lists", LISTS.to_string()), ("within_half_a_second", planned.to_string())];
    let members = [
        ("jobs", outlook.jobs.to_string()),
        ("sets", outlook.sets.to_string()),
        ("without_waits", outlook.without_waits().to_string()),
        ("benchmark", json::object(&benchmark)),
    ];
    json::object(&members) + "\n"
}
