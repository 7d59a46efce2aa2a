//! Measures the library: planning by size and working memory beside the same search in plain Rust, the stack, and the other calls.
mod ablation;
mod child;
mod clock;
mod departures;
mod desk_calls;
mod ends;
mod gecode;
mod model;
mod options;
mod picture;
mod planning;
mod process;
mod sheet_calls;
mod sizes;
mod stack_need;
mod times;
mod usage;

use options::{Options, Part};
use std::env;
use usage::USAGE;

fn main() {
    let words: Vec<String> = env::args().skip(1).collect();
    if words.first().is_some_and(|word| word == child::OPTION) {
        return child::answer(&words[1..]);
    }
    let options = match Options::read(&words) {
        Ok(Some(options)) => options,
        Ok(None) => return print!("{USAGE}"),
        Err(why) => {
            eprint!("bench: {why}\n\n{USAGE}");
            std::process::exit(2);
        }
    };
    for part in &options.parts {
        match part {
            Part::Plans => planning::measure(&options),
            Part::Arrivals => planning::measure_arrivals(&options),
            Part::Changeovers => planning::measure_changeovers(&options),
            Part::Ends => ends::measure(&options),
            Part::Sizes => sizes::measure(&options),
            Part::Departures => departures::measure(&options),
            Part::Ablation => ablation::measure(&options),
            Part::Gecode => gecode::measure(&options),
            Part::Stack => stack_need::measure(),
            Part::Sheets => sheet_calls::measure(),
            Part::Desk => desk_calls::measure(),
        }
    }
}
