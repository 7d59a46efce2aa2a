//! What is wrong in a list: the line, the column, what was found and what is allowed.
use crate::outcome::Trouble;
use std::fmt::Write;

/// More faults than this are counted, not shown.
const SHOWN: usize = 20;

/// One fault.
#[derive(Debug)]
pub struct Fault {
    pub line: usize,
    /// The column's number, from 1, and its name.
    pub column: Option<(usize, String)>,
    pub found: String,
    pub allowed: String,
}

/// The faults of a list so far.
#[derive(Default)]
pub struct Faults(Vec<Fault>);

impl Faults {
    pub fn put(&mut self, line: usize, column: Option<(usize, &str)>, found: impl Into<String>, allowed: impl Into<String>) {
        let column = column.map(|(number, name)| (number, name.to_string()));
        self.0.push(Fault { line, column, found: found.into(), allowed: allowed.into() });
    }

    /// The list where nothing is wrong; else every fault.
    pub fn or<T>(self, file: &str, list: T) -> Result<T, Trouble> {
        if self.0.is_empty() {
            return Ok(list);
        }
        Err(self.told(file))
    }

    /// Every fault, in the order of the lines.
    pub fn told(mut self, file: &str) -> Trouble {
        self.0.sort_by_key(|fault| fault.line);
        let mut text = String::new();
        for fault in self.0.iter().take(SHOWN) {
            let column = fault.column.as_ref().map_or(String::new(), |(number, name)| format!(", column {number} ({name})"));
            writeln!(text, "{file}, line {}{column}: found {}; allowed: {}", fault.line, fault.found, fault.allowed).unwrap();
        }
        if self.0.len() > SHOWN {
            writeln!(text, "{file}: and {} more", self.0.len() - SHOWN).unwrap();
        }
        Trouble::List(text)
    }
}
