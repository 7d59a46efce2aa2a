//! What stands over a plan: the depot's name, and the date of the plan's start.
use crate::arguments::Arguments;
use crate::date::{Date, DATE_ALLOWED};
use crate::json;
use crate::outcome::Trouble;

/// What `+1` behind a time means where no date is given.
pub const DAYS: &str = "+1 is the day after the start's.";

const LONGEST_NAME: usize = 60;
const NAME_ALLOWED: &str = "a name of 1 to 60 characters, none of which is a control character";

#[derive(Clone, Debug, Default, PartialEq, Eq)]
pub struct Heading {
    depot: Option<String>,
    date: Option<Date>,
}

impl Heading {
    /// The heading that a command line gives.
    pub fn by(arguments: &Arguments) -> Result<Heading, Trouble> {
        let depot = arguments.read_value("--depot", name, NAME_ALLOWED)?;
        let date = arguments.read_value("--date", Date::read, DATE_ALLOWED)?;
        Ok(Heading { depot, date })
    }

    pub fn depot(&self) -> Option<&str> {
        self.depot.as_deref()
    }

    pub fn date(&self) -> Option<Date> {
        self.date
    }

    /// The date of a plan that ends so many days after its start's: `Tue 2026-11-17 to Wed 2026-11-18`
    pub fn dates(&self, days: u32) -> Option<String> {
        let first = self.date?;
        Some(if days == 0 { first.in_words() } else { format!("{} to {}", first.in_words(), first.later(days).in_words()) })
    }

    /// Name and dates, where one of them is given.
    pub fn words(&self, days: u32) -> Option<String> {
        let parts: Vec<String> = self.depot.clone().into_iter().chain(self.dates(days)).collect();
        (!parts.is_empty()).then(|| parts.join(", "))
    }

    /// What `+1` behind a time means, and each further mark up to this one.
    pub fn marks(&self, days: u32) -> String {
        let Some(first) = self.date else { return DAYS.into() };
        let mark = |day: u32| format!("+{day} is {}", first.later(day).in_words());
        let shown: Vec<String> = (1..=days.min(3)).map(mark).collect();
        format!("{}.", shown.join(", "))
    }

    /// Its members in JSON.
    pub fn members(&self) -> Vec<(&'static str, String)> {
        let depot = self.depot.iter().map(|name| ("depot", json::text(name)));
        depot.chain(self.date.iter().map(|date| ("date", json::text(&date.to_string())))).collect()
    }
}

/// A depot's name: a line of text that markup, terminals and spreadsheets can show.
fn name(word: &str) -> Option<String> {
    let name = word.trim();
    let length = name.chars().count();
    ((1..=LONGEST_NAME).contains(&length) && name.chars().all(can_be_shown)).then(|| name.into())
}

/// Whether a character stands for itself: no control character, no mark that turns or breaks the line, none that XML forbids.
fn can_be_shown(c: char) -> bool {
    let turns = matches!(c, '\u{200b}'..='\u{200f}' | '\u{2028}'..='\u{202e}' | '\u{2060}'..='\u{206f}' | '\u{feff}');
    !c.is_control() && !turns && c as u32 & 0xFFFE != 0xFFFE
}

#[cfg(test)]
mod tests {
    use super::*;

    #[test]
    fn names() {
        assert_eq!(name(" Nord & Süd <2> "), Some("Nord & Süd <2>".into()));
        assert_eq!(name(&"é".repeat(60)).map(|name| name.chars().count()), Some(60));
        for wrong in ["", "  ", "a\u{1b}[1m", "a\nb", "a\tb", "a\0", "\u{202e}b", "a\u{2028}b", "\u{ffff}", "\u{85}x", "\u{7f}"] {
            assert_eq!(name(&format!("x{wrong}y")).filter(|_| !wrong.trim().is_empty()), None, "{wrong:?}");
        }
        assert_eq!(["", "  ", &"x".repeat(61)].map(name), [const { None }; 3]);
    }

    #[test]
    fn words_over_a_plan() {
        let date = Date::read("2026-12-31");
        let both = Heading { depot: Some("Nord".into()), date };
        assert_eq!(both.words(0).unwrap(), "Nord, Thu 2026-12-31");
        assert_eq!(both.words(1).unwrap(), "Nord, Thu 2026-12-31 to Fri 2027-01-01");
        assert_eq!(Heading { depot: None, date }.words(2).unwrap(), "Thu 2026-12-31 to Sat 2027-01-02");
        assert_eq!(Heading::default().words(1), None);
        assert_eq!(both.marks(2), "+1 is Fri 2027-01-01, +2 is Sat 2027-01-02.");
        assert_eq!(Heading::default().marks(2), "+1 is the day after the start's.");
    }
}
