//! Waiting for a search, with word on standard error of how it stands; and when it is waited for no longer.
use crate::clock::{how_long, Clock};
use crate::ctrl_c::Listening;
use crate::outlook::Outlook;
use crate::so_far::{Best, SoFar};
use crate::width::{columns, ERRORS};
use std::io::{self, IsTerminal, Write};
use std::sync::mpsc::{Receiver, RecvTimeoutError};
use std::time::{Duration, Instant};

/// How long nothing is said, and how often it is said then: on a terminal, and elsewhere.
const SILENT: Duration = Duration::from_secs(1);
const ON_TERMINAL: Duration = Duration::from_millis(200);
const ELSEWHERE: Duration = Duration::from_secs(10);
/// How often it is looked whether to wait on.
const LOOKS: Duration = Duration::from_millis(100);

/// What `--within` takes.
pub const WITHIN_ALLOWED: &str = "seconds, 0.1 to 86400";

/// A time that is given in seconds.
pub fn seconds(word: &str) -> Option<Duration> {
    let digits = |part: &str| !part.is_empty() && part.len() <= 9 && part.bytes().all(|byte| byte.is_ascii_digit());
    let is_decimal = word.split_once('.').map_or(digits(word), |(whole, part)| digits(whole) && digits(part));
    let seconds = is_decimal.then(|| word.parse::<f64>().ok())?.filter(|seconds| (0.1..=86_400.0).contains(seconds))?;
    Some(Duration::from_secs_f64(seconds))
}

/// A search that is waited for.
pub struct Search<'a> {
    /// The sheet that is planned, and what is searched for.
    pub sheet: &'a [u8],
    pub what: &'a str,
    pub memory: usize,
    /// What is taken where it is waited for no longer.
    pub takes: Takes,
}

/// What is taken where a search is waited for no longer.
#[derive(Clone, Copy, PartialEq, Eq)]
pub enum Takes {
    /// The best plan so far of the sheet that is planned.
    Best,
    /// What was found before.
    Found,
    Nothing,
}

/// The patience of a run, which may make several searches.
pub struct Waiting {
    from: Instant,
    clock: Option<Clock>,
    within: Option<Duration>,
    ctrl_c: Option<Listening>,
    is_foretold: bool,
}

impl Waiting {
    /// Until the search is over; Ctrl-C ends the program.
    pub fn for_ever(clock: Option<Clock>) -> Waiting {
        Waiting { from: Instant::now(), clock, within: None, ctrl_c: None, is_foretold: false }
    }

    /// So long at most, where that is given, and until Ctrl-C; then the best so far is taken.
    pub fn until(within: Option<Duration>, clock: Option<Clock>) -> Waiting {
        Waiting { within, ctrl_c: Some(Listening::new()), ..Waiting::for_ever(clock) }
    }

    /// How long it was waited, in words.
    pub fn how_long(&self) -> String {
        let waited = self.from.elapsed();
        in_words(self.within.filter(|within| *within <= waited).unwrap_or(waited))
    }

    fn is_over(&self) -> bool {
        self.ctrl_c.as_ref().is_some_and(Listening::is_pressed) || self.within.is_some_and(|within| self.from.elapsed() >= within)
    }

    /// How long until it is to be looked again.
    fn pause(&self) -> Duration {
        let left = self.within.map_or(LOOKS, |within| within.saturating_sub(self.from.elapsed()));
        left.clamp(Duration::from_millis(1), LOOKS)
    }

    /// The answer, or the best plan so far where it is waited for no longer and there is one to take.
    pub fn answer<T>(&mut self, receive: &Receiver<T>, search: &Search) -> Result<T, Option<Best>> {
        let mut word = Word::new();
        let mut so_far = None;
        let begin = || (search.takes == Takes::Best).then(|| SoFar::of(search.sheet, search.memory));
        if self.within.is_some() {
            so_far = begin();
        }
        loop {
            match receive.recv_timeout(self.pause()) {
                Ok(answer) => {
                    word.last();
                    return Ok(answer);
                }
                Err(RecvTimeoutError::Disconnected) => panic!("the search stopped without an answer"),
                Err(RecvTimeoutError::Timeout) => {}
            }
            if self.is_over() {
                so_far = so_far.or_else(begin);
                let best = so_far.as_ref().and_then(SoFar::at_least_one);
                // a sheet that is refused has no plan; then the answer is near
                if best.is_some() || search.takes != Takes::Best {
                    word.clear_line();
                    return Err(best);
                }
            } else if word.from.elapsed() >= SILENT {
                so_far = so_far.or_else(begin);
                self.say(&mut word, search, so_far.as_ref());
            }
        }
    }

    /// Says what the list is in for, once, and how the search stands where it is time to.
    fn say(&mut self, word: &mut Word, search: &Search, so_far: Option<&SoFar>) {
        if !self.is_foretold {
            self.is_foretold = true;
            if let Ok(outlook) = Outlook::of(search.sheet) {
                word.line(&format!("a long search: {} {}", outlook.sets_in_words(), outlook.benchmark_in_words()));
            }
        }
        let best = so_far.and_then(SoFar::now);
        if let (false, Some(best), Some(end)) = (word.has_advised, &best, so_far.and_then(SoFar::in_quarters)) {
            word.has_advised = true;
            word.line(&self.of_quarters(best, end));
        }
        if Instant::now() >= word.next {
            let long = self.standing(word, search, best.as_ref());
            let short = || self.in_short(word, search, best.as_ref());
            word.standing(if word.terminal && long.len() >= columns(ERRORS) { short() } else { long });
        }
    }

    fn standing(&self, word: &Word, search: &Search, best: Option<&Best>) -> String {
        let so_far = match best {
            None => String::new(),
            Some(Best { end, bound, .. }) if bound == end => {
                format!("; no plan ends before {}, its order is not settled", self.time(*end))
            }
            Some(best) => format!(
                "; best so far {}, no plan ends before {}: at most {} to gain",
                self.time(best.end),
                self.time(best.bound),
                gap(best)
            ),
        };
        format!("searching for {}: {}{so_far} ({})", search.what, word.how_long(), self.hint(search, best))
    }

    /// The same for a terminal that is narrow.
    fn in_short(&self, word: &Word, search: &Search, best: Option<&Best>) -> String {
        let so_far = match best {
            None => String::new(),
            Some(Best { end, bound, .. }) if bound == end => format!(": ends {}, order not settled", self.time(*end)),
            Some(best) => format!(": best {}, none before {}, gap {}", self.time(best.end), self.time(best.bound), gap(best)),
        };
        format!("{}{so_far} ({})", word.how_long(), self.hint(search, best))
    }

    /// What Ctrl-C does.
    fn hint(&self, search: &Search, best: Option<&Best>) -> &'static str {
        match search.takes {
            _ if self.ctrl_c.is_none() => "Ctrl-C ends it without an answer",
            Takes::Best if best.is_some() => "Ctrl-C takes it",
            Takes::Best => "Ctrl-C takes the best so far",
            Takes::Found => "Ctrl-C takes the plan so far",
            Takes::Nothing => "Ctrl-C gives up",
        }
    }

    fn of_quarters(&self, best: &Best, end: u16) -> String {
        let cost = match end.abs_diff(best.end).into() {
            0 => "as early as the best so far".into(),
            minutes if end > best.end => format!("{} after the best so far", how_long(minutes)),
            minutes => format!("{} before the best so far", how_long(minutes)),
        };
        format!(
            "a long search: with every time rounded up to a quarter of an hour it is planned at once, and the last bus is full by {}, {cost}.",
            self.time(end)
        )
    }

    /// A minute as a time of day, or as hours and minutes since the start.
    fn time(&self, minute: u16) -> String {
        match self.clock {
            Some(clock) => clock.time(minute.into()),
            None => format!("minute {minute} ({})", Clock::FROM_ZERO.time(minute.into())),
        }
    }
}

fn gap(best: &Best) -> String {
    how_long((best.end - best.bound).into())
}

/// What is said on standard error while a search lasts: on a terminal in one line, which is written over.
struct Word {
    terminal: bool,
    from: Instant,
    next: Instant,
    has_spoken: bool,
    has_advised: bool,
}

impl Word {
    fn new() -> Word {
        let from = Instant::now();
        Word { terminal: io::stderr().is_terminal(), from, next: from, has_spoken: false, has_advised: false }
    }

    fn how_long(&self) -> String {
        took(self.from.elapsed().as_secs())
    }

    fn clear(&self) -> &'static str {
        if self.terminal {
            return "\r\x1b[K";
        }
        ""
    }

    /// A line that stays.
    fn line(&mut self, text: &str) {
        eprintln!("{}{text}", self.clear());
        self.has_spoken = true;
    }

    /// How it stands.
    fn standing(&mut self, text: String) {
        if self.terminal {
            let room = columns(ERRORS).saturating_sub(1);
            eprint!("{}{}", self.clear(), text.chars().take(room).collect::<String>());
            io::stderr().flush().ok();
        } else {
            eprintln!("{text}");
        }
        self.has_spoken = true;
        self.next = Instant::now() + if self.terminal { ON_TERMINAL } else { ELSEWHERE };
    }

    /// Takes away what stands in the line that is written over.
    fn clear_line(&self) {
        if self.has_spoken {
            eprint!("{}", self.clear());
        }
    }

    /// How long it took, where something was said.
    fn last(&mut self) {
        if self.has_spoken {
            self.line(&format!("searched for {}", self.how_long()));
        }
    }
}

fn took(seconds: u64) -> String {
    if seconds < 60 {
        return format!("{seconds} s");
    }
    format!("{} min {:02} s", seconds / 60, seconds % 60)
}

/// A time with its tenths of a second where they matter.
fn in_words(time: Duration) -> String {
    let tenths = time.as_millis().div_ceil(100);
    if tenths < 100 && !tenths.is_multiple_of(10) {
        return format!("{}.{} s", tenths / 10, tenths % 10);
    }
    took(tenths as u64 / 10)
}

#[cfg(test)]
mod tests {
    use super::*;

    #[test]
    fn seconds_that_are_given() {
        let given = [("0.1", 100), ("1", 1000), ("2.5", 2500), ("86400", 86_400_000), ("007", 7000), ("86400.000", 86_400_000)];
        for (word, milliseconds) in given {
            assert_eq!(seconds(word), Some(Duration::from_millis(milliseconds)), "{word}");
        }
        let wrong = [
            "",
            "0",
            "0.09",
            "86400.1",
            "86401",
            "-1",
            "+1",
            "1e3",
            "inf",
            "nan",
            ".5",
            "5.",
            "1.2.3",
            "10s",
            " 1",
            "1,5",
            "9999999999",
        ];
        assert_eq!(wrong.map(seconds), [None; 17]);
    }

    #[test]
    fn words_of_times() {
        let words = [100, 1000, 2500, 2510, 9_900, 9_950, 10_400, 60_000, 95_000].map(Duration::from_millis).map(in_words);
        assert_eq!(words, ["0.1 s", "1 s", "2.5 s", "2.6 s", "9.9 s", "10 s", "10 s", "1 min 00 s", "1 min 35 s"]);
    }
}
