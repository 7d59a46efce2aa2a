//! The words behind a verb: options with and without values, and files.
use crate::meant::perhaps;
use crate::outcome::{visible, Trouble};

/// What a verb takes.
pub struct Takes<'a> {
    pub verb: &'a str,
    /// Options that stand alone.
    pub flags: &'a [&'a str],
    /// Options with a value.
    pub values: &'a [&'a str],
    /// The names of what stands without an option, for messages.
    pub plain: &'a [&'a str],
    /// How many of them must be there.
    pub needed: usize,
    /// Whether the last of them may stand several times.
    pub more: bool,
}

/// The words of a command line, sorted.
pub struct Arguments {
    verb: String,
    flags: Vec<String>,
    values: Vec<(String, String)>,
    plain: Vec<String>,
}

impl Arguments {
    pub fn read(takes: &Takes, words: &[String]) -> Result<Arguments, Trouble> {
        let wrong = |why: String| Err(Trouble::usage(why, takes.verb));
        let mut read = Arguments { verb: takes.verb.into(), flags: Vec::new(), values: Vec::new(), plain: Vec::new() };
        let mut words = words.iter();
        while let Some(word) = words.next() {
            let (name, joined) = match word.split_once('=') {
                Some((name, value)) if name.starts_with("--") => (name, Some(value.to_string())),
                _ => (word.as_str(), None),
            };
            if takes.values.contains(&name) {
                let Some(value) = joined.or_else(|| words.next().cloned()) else {
                    return wrong(format!("{name} needs a value"));
                };
                if read.value(name).is_some() {
                    return wrong(format!("{name} stands twice"));
                }
                read.values.push((name.into(), value));
            } else if takes.flags.contains(&name) && joined.is_none() {
                read.flags.push(name.into());
            } else if name.len() > 1 && name.starts_with('-') {
                let meant = perhaps(name, takes.flags.iter().chain(takes.values));
                return wrong(format!("there is no option '{}'{meant}", visible(word)));
            } else if read.plain.len() == takes.plain.len() && !takes.more {
                return wrong(format!("'{}' is one word too many", visible(word)));
            } else {
                read.plain.push(word.clone());
            }
        }
        if read.plain.len() < takes.needed {
            return wrong(format!("{} is missing", takes.plain[read.plain.len()]));
        }
        Ok(read)
    }

    pub fn verb(&self) -> &str {
        &self.verb
    }

    pub fn has(&self, flag: &str) -> bool {
        self.flags.iter().any(|word| word == flag)
    }

    pub fn value(&self, option: &str) -> Option<&str> {
        self.values.iter().find(|(name, _)| name == option).map(|(_, value)| value.as_str())
    }

    pub fn all_plain(&self) -> &[String] {
        &self.plain
    }

    pub fn plain(&self, place: usize) -> Option<&str> {
        self.plain.get(place).map(String::as_str)
    }

    /// The value of an option as something else; what is allowed is said where it is not.
    pub fn read_value<T>(&self, option: &str, read: impl Fn(&str) -> Option<T>, allowed: &str) -> Result<Option<T>, Trouble> {
        let Some(word) = self.value(option) else { return Ok(None) };
        let wrong = || Trouble::usage(format!("{option}: found '{}'; allowed is {allowed}", visible(word)), &self.verb);
        read(word).map(Some).ok_or_else(wrong)
    }
}
