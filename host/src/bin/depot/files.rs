//! Files that a verb writes beside its answer. Where one of them is standard output it is all that goes there.
use crate::arguments::Arguments;
use crate::outcome::{put, say, Outcome, Trouble};

pub struct Files<'a> {
    arguments: &'a Arguments,
    takes_output: bool,
}

impl Files<'_> {
    /// The files that these options name; only one of them may be standard output.
    pub fn of<'a>(arguments: &'a Arguments, options: &[&str]) -> Result<Files<'a>, Trouble> {
        let to_output: Vec<&str> = options.iter().copied().filter(|option| arguments.value(option) == Some("-")).collect();
        if let [one, other, ..] = to_output[..] {
            return Err(Trouble::usage(format!("{one} - and {other} - exclude each other"), arguments.verb()));
        }
        let form = ["--raw", "--json", "--work"].into_iter().find(|form| arguments.has(form));
        if let (Some(one), Some(form)) = (to_output.first(), form) {
            return Err(Trouble::usage(format!("{one} - and {form} exclude each other"), arguments.verb()));
        }
        Ok(Files { arguments, takes_output: !to_output.is_empty() })
    }

    /// Whether one of them is standard output.
    pub fn takes_output(&self) -> bool {
        self.takes_output
    }

    /// Writes the file of an option, where it is asked for.
    pub fn write(&self, option: &str, bytes: impl FnOnce() -> Vec<u8>) -> Result<(), Trouble> {
        self.arguments.value(option).map_or(Ok(()), |file| put(file, &bytes()))
    }

    /// Says the answer, unless a file has taken standard output.
    pub fn then_say(&self, answer: impl FnOnce() -> String) -> Result<Outcome, Trouble> {
        if self.takes_output {
            return Ok(Outcome::Answered);
        }
        say(&answer())
    }
}
