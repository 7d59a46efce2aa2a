//! A yard list: a text that people write, a line for each job, and the job sheet that the library writes of it.
mod after;
mod csv;
mod fault;
mod kind;
mod reader;
mod words;
mod writer;

use crate::clock::Clock;
pub use after::cell as after_cell;
use depot_host::{write, Job, Refusal, LONGEST_SHEET};
pub use kind::is_list;
pub use reader::read;
pub use writer::{text, text_with};

/// The columns of a list.
pub const COLUMNS: [&str; 6] = ["label", "modules", "minutes", "after", "departure", "arrival"];

/// What a list says.
#[derive(Debug)]
pub struct List {
    /// N, the modules in the cabinet.
    pub modules: u16,
    /// The minutes that a module rests between two jobs.
    pub changeover: u16,
    /// The time of day of the plan's start, where the list has it.
    pub clock: Option<Clock>,
    pub jobs: Vec<Job>,
    /// The labels run together.
    pub labels: Vec<u8>,
    /// The line of each job.
    pub lines: Vec<usize>,
    /// What is worth a word though nothing is wrong.
    pub notes: Vec<String>,
}

impl List {
    /// The job sheet, as the library writes it.
    pub fn sheet(&self) -> Result<Vec<u8>, Refusal> {
        let mut sheet = vec![0; LONGEST_SHEET];
        let length = write(&self.jobs, &self.labels, self.modules, self.changeover, &mut sheet)?;
        sheet.truncate(length);
        Ok(sheet)
    }
}

/// Whether a word in the column `after` names a job by its number.
fn is_number(word: &str) -> bool {
    word.strip_prefix('#').is_some_and(|digits| !digits.is_empty() && digits.bytes().all(|byte| byte.is_ascii_digit()))
}
