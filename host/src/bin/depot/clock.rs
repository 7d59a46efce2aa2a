//! The yard's clock: minutes counted from the plan's start as times of day.

pub const DAY: u32 = 24 * 60;

/// A clock that shows the time of day, from that of minute 0 on, or the hours since minute 0.
#[derive(Clone, Copy, Debug, PartialEq, Eq)]
pub struct Clock {
    /// The time of day at minute 0, in minutes after midnight.
    start: Option<u32>,
}

/// What a start time may look like.
pub const START_ALLOWED: &str = "a time of day, 00:00 to 23:59";

impl Clock {
    /// A clock that shows hours and minutes since the start.
    pub const FROM_ZERO: Clock = Clock { start: None };

    /// The clock of a plan that starts at this time of day.
    pub fn starting(word: &str) -> Option<Clock> {
        time_of_day(word).map(|start| Clock { start: Some(start % DAY) })
    }

    /// `21:05`; past the start's day `05:20+1`, with the days since then. Without a start the hours run on: `26:30`.
    pub fn time(self, minute: u32) -> String {
        let Some(start) = self.start else {
            return format!("{}:{:02}", minute / 60, minute % 60);
        };
        let all = start + minute;
        let days = all / DAY;
        let marked = if days == 0 { String::new() } else { format!("+{days}") };
        format!("{}{marked}", hours(all % DAY))
    }

    /// The time of day alone, whatever the day; without a start the hours since it.
    pub fn hour(self, minute: u32) -> String {
        self.start.map_or_else(|| self.time(minute), |start| hours((start + minute) % DAY))
    }

    /// How many days after the start's a minute lies; 0 without a start.
    pub fn days(self, minute: u32) -> u32 {
        self.start.map_or(0, |start| (start + minute) / DAY)
    }

    /// The time of day at minute 0, in minutes after midnight.
    pub fn start(self) -> Option<u32> {
        self.start
    }

    /// The minutes up to the last one at which the time of day, or the time since the start, is a whole number of steps; the start in front
    /// of them where it is three quarters of a step away.
    pub fn full_steps(self, step: u32, last: u32) -> Vec<u32> {
        let start = self.start.unwrap_or(0);
        let first = start.next_multiple_of(step) - start;
        let at_start = (4 * first >= 3 * step).then_some(0);
        at_start.into_iter().chain((first..=last).step_by(step as usize)).collect()
    }

    /// A minute that may lie before the start: `20:50`, or `22:10-1` on the day before the start's; without a start `-0:40`.
    pub fn moment(self, minute: i32) -> String {
        let Ok(before) = u32::try_from(-i64::from(minute)) else { return self.time(minute.unsigned_abs()) };
        let Some(start) = self.start else {
            return if before == 0 { self.time(0) } else { format!("-{}", self.time(before)) };
        };
        let days = before.saturating_sub(start).div_ceil(DAY);
        let marked = if days == 0 { String::new() } else { format!("-{days}") };
        format!("{}{marked}", hours(start + days * DAY - before))
    }

    /// The minute of a time: of `05:20` the first from the start on; of `05:20+1` the one on the day after the start's.
    pub fn minute(self, word: &str) -> Option<u32> {
        let start = self.start?;
        let Some((time, days)) = word.split_once('+') else {
            return Some((time_of_day(word)? + DAY - start) % DAY);
        };
        let days = whole(days).filter(|days| *days <= 99)?;
        (time_of_day(time)? + DAY * days).checked_sub(start)
    }
}

fn hours(minutes: u32) -> String {
    format!("{:02}:{:02}", minutes / 60, minutes % 60)
}

/// The minutes of `7:05`, `07:05` or, as spreadsheets write it, `07:05:00`; `24:00` is the day's end.
fn time_of_day(word: &str) -> Option<u32> {
    let (hour, minute) = word.split_once(':')?;
    let minute = minute.strip_suffix(":00").unwrap_or(minute);
    if hour.is_empty() || hour.len() > 2 || minute.len() != 2 {
        return None;
    }
    let (hour, minute) = (whole(hour)?, whole(minute)?);
    (hour < 24 && minute < 60 || hour == 24 && minute == 0).then_some(60 * hour + minute)
}

/// Whether a word is a minute or a time of day, with or without its day.
pub fn is_time(word: &str) -> bool {
    let time = word.split_once('+').map_or(word, |(time, _)| time);
    !time.is_empty() && (whole(time).is_some() || time_of_day(time).is_some())
}

/// So many minutes in words: `25 min`, `6 h 02`.
pub fn how_long(minutes: u32) -> String {
    match minutes {
        0..60 => format!("{minutes} min"),
        _ => format!("{} h {:02}", minutes / 60, minutes % 60),
    }
}

/// A number written in digits alone.
pub fn whole(word: &str) -> Option<u32> {
    word.bytes().all(|byte| byte.is_ascii_digit()).then(|| word.parse().ok())?
}

#[cfg(test)]
mod tests {
    use super::*;

    #[test]
    fn times_of_a_night() {
        let clock = Clock::starting("21:30").unwrap();
        let shown = [(0, "21:30"), (149, "23:59"), (150, "00:00+1"), (1440, "21:30+1"), (28_800, "21:30+20")];
        for (minute, time) in shown {
            assert_eq!(clock.time(minute), time);
            assert_eq!(clock.minute(time), Some(minute));
        }
        assert_eq!(clock.minute("05:20"), Some(470));
        assert_eq!(clock.minute("21:29"), Some(1439));
        assert_eq!(clock.minute("9:05"), Some(695));
        assert_eq!(["24:00", "24:00+1", "09:05:00"].map(|word| clock.minute(word)), [Some(150), Some(1590), Some(695)]);
        assert_eq!(Clock::starting("24:00"), Clock::starting("00:00"));
        assert_eq!([0, 90, 1590].map(|minute| Clock::FROM_ZERO.time(minute)), ["0:00", "1:30", "26:30"]);
    }

    #[test]
    fn words_of_minutes() {
        assert_eq!([0, 59, 60, 362].map(how_long), ["0 min", "59 min", "1 h 00", "6 h 02"]);
    }

    #[test]
    fn full_hours() {
        let clock = Clock::starting("21:30").unwrap();
        assert_eq!(clock.full_steps(60, 200), [30, 90, 150]);
        assert_eq!(Clock::starting("21:15").unwrap().full_steps(60, 200), [0, 45, 105, 165]);
        assert_eq!(clock.full_steps(120, 200), [30, 150]);
        assert_eq!(clock.full_steps(15, 30), [0, 15, 30]);
        assert_eq!(Clock::FROM_ZERO.full_steps(60, 130), [0, 60, 120]);
    }

    #[test]
    fn moments_before_the_start() {
        let clock = Clock::starting("21:30").unwrap();
        let shown = [(60, "22:30"), (0, "21:30"), (-1290, "00:00"), (-1291, "23:59-1"), (-2730, "00:00-1"), (-2731, "23:59-2")];
        for (minute, time) in shown {
            assert_eq!(clock.moment(minute), time);
        }
        assert_eq!(Clock::starting("00:00").unwrap().moment(-1), "23:59-1");
        assert_eq!([90, 0, -40].map(|minute| Clock::FROM_ZERO.moment(minute)), ["1:30", "0:00", "-0:40"]);
    }

    #[test]
    fn what_is_no_time() {
        let clock = Clock::starting("21:30").unwrap();
        for word in [
            "",
            ":",
            "24:01",
            "12:60",
            "1:5",
            "12:5",
            "123:00",
            "-1:00",
            "12:00+",
            "12:00+x",
            "12:00+100",
            "a:00",
            "20:00+0",
            "1:00:01",
        ] {
            assert_eq!(clock.minute(word), None, "{word}");
        }
        for word in ["", "24:30", "7", "07:00+1", "07.00"] {
            assert_eq!(Clock::starting(word), None, "{word}");
        }
    }
}
