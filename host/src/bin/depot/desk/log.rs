//! The log of a desk: every command with its time and its answer, added to a file.
use crate::date::Date;
use crate::outcome::unwritable;
use std::fs::{File, OpenOptions};
use std::io::Write;
use std::time::{SystemTime, UNIX_EPOCH};

pub struct Log {
    file: File,
    name: String,
}

impl Log {
    pub fn open(name: &str) -> Result<Log, String> {
        let file = OpenOptions::new().create(true).append(true).open(name);
        file.map(|file| Log { file, name: name.into() }).map_err(|why| unwritable(name, &why))
    }

    /// Adds a command and its answer, the lines of which stand below it.
    pub fn note(&mut self, line: &str, answer: &str) -> Result<(), String> {
        let seconds = SystemTime::now().duration_since(UNIX_EPOCH).map_or(0, |since| since.as_secs());
        let below: String = answer.lines().map(|line| format!("    {line}\n")).collect();
        let entry = format!("{} {line}\n{below}", utc(seconds));
        self.file.write_all(entry.as_bytes()).map_err(|why| unwritable(&self.name, &why))
    }
}

/// Date and time of so many seconds since 1970 began, in UTC.
fn utc(seconds: u64) -> String {
    let (date, second) = (Date::of_days(seconds / 86_400), seconds % 86_400);
    format!("{date} {:02}:{:02}:{:02} UTC", second / 3600, second / 60 % 60, second % 60)
}

#[test]
fn dates() {
    let shown = [
        (0, "1970-01-01 00:00:00 UTC"),
        (951_782_399, "2000-02-28 23:59:59 UTC"),
        (951_782_400, "2000-02-29 00:00:00 UTC"),
        (1_709_251_199, "2024-02-29 23:59:59 UTC"),
        (4_107_542_400, "2100-03-01 00:00:00 UTC"),
        (1_767_225_599, "2025-12-31 23:59:59 UTC"),
    ];
    for (seconds, date) in shown {
        assert_eq!(utc(seconds), date);
    }
}
