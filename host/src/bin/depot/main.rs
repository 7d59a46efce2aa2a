//! `depot`: the planner and the share desk for people at the yard. Every answer is the proved library's; the tool reads and draws.
mod arguments;
mod chart;
mod clock;
mod coding;
mod completions;
mod ctrl_c;
mod date;
mod desk;
mod end_verb;
mod explain;
mod files;
mod heading;
mod help;
mod help_parts;
mod json;
mod lateness;
mod list;
mod man_page;
mod meant;
mod outcome;
mod outlook;
mod page;
mod plan_csv;
mod plan_json;
mod plan_text;
mod plan_verb;
mod planned;
mod pointer;
mod road;
mod run;
mod search;
mod sets_verb;
mod sheet_verbs;
mod size_verb;
mod slack_verb;
mod so_far;
mod style;
mod taken;
mod use_verb;
mod waiting;
mod wall;
mod width;
mod work_list;

use outcome::{Outcome, Trouble};
use std::{env, process};

fn main() {
    let words: Vec<String> = env::args_os().skip(1).map(|word| word.to_string_lossy().into_owned()).collect();
    process::exit(match run(&words) {
        Ok(Outcome::Answered) => 0,
        Ok(Outcome::Refused) => 1,
        Err(trouble) => {
            trouble.tell();
            trouble.status()
        }
    })
}

/// The version of the command line, and that of the library that it links.
fn versions() -> String {
    let [major, minor, patch] = depot_host::version();
    format!("depot {}\nlibrary {major}.{minor}.{patch}\n", env!("CARGO_PKG_VERSION"))
}

fn run(words: &[String]) -> Result<Outcome, Trouble> {
    let Some((verb, rest)) = words.split_first() else {
        return Err(Trouble::usage("a verb is missing", ""));
    };
    if help::asked_for(rest) {
        if let Some(text) = help::of_verb(verb) {
            return outcome::say(&text);
        }
    }
    match verb.as_str() {
        "sheet" => sheet_verbs::sheet(rest),
        "list" => sheet_verbs::list(rest),
        "plan" => plan_verb::run(rest),
        "end" => end_verb::run(rest),
        "size" => size_verb::run(rest),
        "use" => use_verb::run(rest),
        "slack" => slack_verb::run(rest),
        "sets" => sets_verb::run(rest),
        "desk" => desk::run(rest),
        "run" => run::run(rest),
        "explain" => explain::run(rest),
        help::VERB => help::run(rest),
        verb if help::ASKS.contains(&verb) => outcome::say(help::TOP),
        "--version" | "-V" => outcome::say(&versions()),
        _ => Err(help::no_verb(verb)),
    }
}
