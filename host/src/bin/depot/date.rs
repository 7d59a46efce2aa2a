//! Dates of the calendar.
use crate::clock::whole;
use std::fmt;

/// A day, counted from 1970-01-01.
#[derive(Clone, Copy, Debug, PartialEq, Eq, PartialOrd, Ord)]
pub struct Date {
    days: u64,
}

/// What a date may look like.
pub const DATE_ALLOWED: &str = "a date as 2026-11-17, from 1970 to 9999";

const FIRST_YEAR: u64 = 1970;
const WEEKDAYS: [&str; 7] = ["Thu", "Fri", "Sat", "Sun", "Mon", "Tue", "Wed"];

fn is_leap(year: u64) -> bool {
    year.is_multiple_of(4) && (!year.is_multiple_of(100) || year.is_multiple_of(400))
}

fn year_length(year: u64) -> u64 {
    365 + u64::from(is_leap(year))
}

fn months(year: u64) -> [u64; 12] {
    [31, 28 + u64::from(is_leap(year)), 31, 30, 31, 30, 31, 31, 30, 31, 30, 31]
}

impl Date {
    /// The day so many days after 1970-01-01.
    pub fn of_days(days: u64) -> Date {
        Date { days }
    }

    /// The date of `2026-11-17`.
    pub fn read(word: &str) -> Option<Date> {
        let parts: Vec<&str> = word.split('-').collect();
        let lengths: Vec<usize> = parts.iter().map(|part| part.len()).collect();
        if lengths != [4, 2, 2] {
            return None;
        }
        let figures: Vec<u64> = parts.into_iter().map(whole).collect::<Option<Vec<u32>>>()?.into_iter().map(u64::from).collect();
        let [year, month, day] = figures[..] else { return None };
        let months = months(year);
        let length = *months.get(usize::try_from(month).ok()?.checked_sub(1)?)?;
        if year < FIRST_YEAR || !(1..=length).contains(&day) {
            return None;
        }
        let years: u64 = (FIRST_YEAR..year).map(year_length).sum();
        let before: u64 = months[..month as usize - 1].iter().sum();
        Some(Date { days: years + before + day - 1 })
    }

    /// So many days later.
    pub fn later(self, days: u32) -> Date {
        Date { days: self.days + u64::from(days) }
    }

    /// The days since 1970-01-01.
    pub fn days(self) -> u64 {
        self.days
    }

    /// `Tue 2026-11-17`
    pub fn in_words(self) -> String {
        format!("{} {self}", WEEKDAYS[(self.days % 7) as usize])
    }
}

impl fmt::Display for Date {
    /// `2026-11-17`
    fn fmt(&self, f: &mut fmt::Formatter) -> fmt::Result {
        let mut days = self.days;
        let mut year = FIRST_YEAR;
        while days >= year_length(year) {
            days -= year_length(year);
            year += 1;
        }
        let mut month = 1;
        for length in months(year) {
            if days < length {
                break;
            }
            days -= length;
            month += 1;
        }
        write!(f, "{year}-{month:02}-{:02}", days + 1)
    }
}

#[cfg(test)]
mod tests {
    use super::*;

    #[test]
    fn dates_there_and_back() {
        let shown = [
            ("1970-01-01", "Thu"),
            ("2000-02-29", "Tue"),
            ("2024-12-31", "Tue"),
            ("2026-11-17", "Tue"),
            ("2100-03-01", "Mon"),
            ("9999-12-31", "Fri"),
        ];
        for (word, weekday) in shown {
            let date = Date::read(word).unwrap();
            assert_eq!(date.in_words(), format!("{weekday} {word}"));
        }
        for days in (0..800_000).step_by(97) {
            assert_eq!(Date::read(&Date::of_days(days).to_string()), Some(Date::of_days(days)));
        }
        let next = |word: &str| Date::read(word).unwrap().later(1).to_string();
        assert_eq!(["2026-12-31", "2028-02-28", "2027-02-28"].map(next), ["2027-01-01", "2028-02-29", "2027-03-01"]);
    }

    #[test]
    fn what_is_no_date() {
        for word in ["", "2026", "2026-11", "2026-13-01", "2026-00-01", "2026-02-29", "2026-11-31", "2026-11-00", "1969-12-31"] {
            assert_eq!(Date::read(word), None, "{word}");
        }
        for word in ["17.11.2026", "2026-1-7", "26-11-17", "2026-11-17-", "2026/11/17", "+026-11-17", "2026-11-1é", "10000-01-01"]
        {
            assert_eq!(Date::read(word), None, "{word}");
        }
    }
}
