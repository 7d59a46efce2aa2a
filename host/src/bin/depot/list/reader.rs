//! Reading a list: every fault is found, with its line and its column.
use super::csv::Field;
use super::fault::Faults;
use super::words::{label_fault, shown};
use super::{after, csv};
use super::{List, COLUMNS};
use crate::clock::{whole, Clock, START_ALLOWED};
use crate::coding::text_of;
use crate::outcome::{visible, Trouble};
use depot_host::{Job, MOST_JOBS};

/// Columns that may be left out: then no job waits for another, and all buses are there from the start.
const OPTIONAL: [&str; 2] = ["after", "arrival"];

/// The place of the first of them among all columns.
const AFTER: usize = 3;

/// The last minutes of an arrival and of a departure, and in words.
const ARRIVAL: (u32, &str) = (1440, "24 hours");
const DEPARTURE: (u32, &str) = (2880, "48 hours");

/// A figure that has a line of its own before the header.
struct Setting {
    name: &'static str,
    sign: &'static str,
    means: &'static str,
    low: u32,
    high: u32,
}

const CABINET: Setting = Setting { name: "cabinet", sign: "N", means: "modules of the cabinet", low: 1, high: 64 };
const CHANGEOVER: Setting = Setting { name: "changeover", sign: "C", means: "minutes of the changeover", low: 0, high: 30 };

/// Where each column stands, how many fields the header has, and its line.
struct Header {
    columns: Vec<Option<usize>>,
    fields: usize,
    line: usize,
}

/// A time of day this many minutes after the start is said to be taken for one of the next day.
const FAR: u32 = 16 * 60;

/// A job's line before the jobs that it waits for are looked up.
struct Entry {
    line: usize,
    label: String,
    job: Job,
    after: Field,
}

struct Reader {
    file: String,
    faults: Faults,
    notes: Vec<String>,
    /// Whether the list says something of its cabinet, right or wrong.
    names_cabinet: bool,
    modules: Option<u16>,
    changeover: Option<u16>,
    clock: Option<Clock>,
    /// Whether the clock stands in place of the list's.
    given: bool,
    /// What separates fields, once the first line has been read.
    separator: Option<char>,
    header: Option<Header>,
    entries: Vec<Entry>,
}

/// The list that these bytes say; a given start stands in place of the list's.
pub fn read(file: &str, bytes: &[u8], start: Option<Clock>) -> Result<List, Trouble> {
    let given = start.is_some();
    let mut reader = Reader {
        file: file.into(),
        faults: Faults::default(),
        notes: Vec::new(),
        names_cabinet: false,
        modules: None,
        changeover: None,
        clock: start,
        given,
        separator: None,
        header: None,
        entries: Vec::new(),
    };
    let text = text_of(bytes);
    if text.trim_start().starts_with('<') {
        reader.faults.put(1, None, "'<', as pictures and pages begin", "a list; 'depot plan --help' shows one");
        return Err(reader.faults.told(file));
    }
    let mut last = 1;
    for (place, line) in text.split('\n').enumerate() {
        last = if line.is_empty() { last } else { place + 1 };
        reader.line(place + 1, line);
    }
    reader.finish(last)
}

impl Reader {
    fn line(&mut self, number: usize, line: &str) {
        if line.trim().is_empty() || csv::is_remark(line.trim()) {
            return;
        }
        self.separator = self.separator.or_else(|| csv::separator(line.trim()));
        let separator = self.separator.unwrap_or(',');
        let line = csv::trimmed(line, separator);
        let names = self.header.as_ref().and_then(|header| header.columns[AFTER]);
        let read = match csv::fields(line, separator, names) {
            Ok(fields) => fields,
            Err((column, why)) => {
                let name = self.name_of(column).unwrap_or("text");
                let allowed = "a field as it is, or all of it in double quotes, with a double quote inside written twice";
                return self.faults.put(number, Some((column, name)), why, allowed);
            }
        };
        let quoted: Vec<bool> = read.iter().map(|field| field.quoted).collect();
        let mut fields: Vec<String> = read.into_iter().map(|field| field.text).collect();
        while fields.len() > 1 && fields.last().is_some_and(String::is_empty) {
            fields.pop();
        }
        if fields.iter().all(String::is_empty) {
            return;
        }
        let first = fields[0].to_ascii_lowercase();
        let is_setting = ["cabinet", "changeover", "start"].contains(&first.as_str());
        self.names_cabinet |= first == "cabinet" && (self.header.is_none() || fields.len() <= 2);
        match (first.as_str(), &self.header) {
            ("cabinet", None) => self.modules = self.setting(number, &CABINET, self.modules, &fields[1..]),
            ("changeover", None) => self.changeover = self.setting(number, &CHANGEOVER, self.changeover, &fields[1..]),
            ("start", None) => self.start(number, &fields[1..]),
            (_, None) => self.header(number, &fields, line),
            (_, Some(_)) if is_setting && fields.len() <= 2 => {
                self.faults.put(number, None, format!("'{first}' below the header"), format!("a line '{first}' above the header"))
            }
            (_, Some(_)) => self.row(number, &fields, &quoted),
        }
    }

    fn name_of(&self, column: usize) -> Option<&'static str> {
        let header = self.header.as_ref()?;
        COLUMNS.into_iter().zip(&header.columns).find(|(_, place)| **place == Some(column - 1)).map(|(name, _)| name)
    }

    /// The figure of a line that may stand once; where the line is wrong, a fault and what was read before.
    fn setting(&mut self, line: usize, of: &Setting, before: Option<u16>, values: &[String]) -> Option<u16> {
        let Setting { name, sign, means, low, high } = of;
        let number = format!("a whole number from {low} to {high}");
        let allowed = format!("a line '{name},{sign}' once, {sign} {number}");
        let found = shown(&values.join(","));
        match values {
            [word] if before.is_none() => match whole(word).filter(|n| (*low..=*high).contains(n)) {
                Some(n) => return Some(n as u16),
                None => self.faults.put(line, Some((2, means)), found, number),
            },
            [_] => self.faults.put(line, None, format!("a second line '{name}'"), allowed),
            _ => self.faults.put(line, Some((2, means)), found, allowed),
        }
        before
    }

    fn start(&mut self, line: usize, values: &[String]) {
        let read = if let [word] = values { Clock::starting(word) } else { None };
        match read {
            Some(_) if self.given => {}
            Some(clock) if self.clock.is_none() => self.clock = Some(clock),
            Some(_) => self.faults.put(line, None, "a second line 'start'", "one such line"),
            None => self.faults.put(line, Some((2, "start time")), shown(&values.join(",")), START_ALLOWED),
        }
    }

    fn header(&mut self, line: usize, fields: &[String], text: &str) {
        let place = |name: &str| fields.iter().position(|field| field.eq_ignore_ascii_case(name));
        let columns: Vec<Option<usize>> = COLUMNS.iter().map(|name| place(name)).collect();
        if columns.iter().all(Option::is_none) {
            return self.no_header(line, fields.len(), text);
        }
        let mut others: Vec<&str> = Vec::new();
        for (number, field) in fields.iter().enumerate().filter(|(number, _)| !columns.contains(&Some(*number))) {
            if COLUMNS.iter().any(|name| field.eq_ignore_ascii_case(name)) {
                self.faults.put(line, Some((number + 1, field)), "a column that stands twice", "each column once");
            } else if !field.is_empty() {
                others.push(field);
            }
        }
        if !others.is_empty() {
            let (plural, names) = (if others.len() == 1 { "" } else { "s" }, visible(&others.join(", ")));
            self.notes.push(format!("{}: passed over the column{plural} {names}", self.file));
        }
        for (name, place) in COLUMNS.iter().zip(&columns) {
            if place.is_none() && !OPTIONAL.contains(name) {
                let allowed =
                    "a header line with label, modules, minutes, departure; after where jobs wait for others; arrival where \
                               buses are still on the road";
                self.faults.put(line, None, format!("no column '{name}'"), allowed);
            }
        }
        self.header = Some(Header { columns, fields: fields.len(), line });
    }

    /// A line that is no header: with two fields it may be meant for a setting, and the header may still come.
    fn no_header(&mut self, line: usize, fields: usize, text: &str) {
        let text = shown(text.trim_end_matches(|c: char| Some(c) == self.separator || c.is_whitespace()));
        if fields <= 2 {
            self.names_cabinet = true;
            return self.faults.put(line, None, text, "'cabinet,N', 'changeover,C', 'start,hh:mm' or the header line");
        }
        self.faults.put(line, None, text, format!("a header line before the jobs, as {}", COLUMNS.join(",")));
        self.header = Some(Header { columns: vec![None; COLUMNS.len()], fields, line });
    }

    fn row(&mut self, line: usize, fields: &[String], quoted: &[bool]) {
        let header = self.header.as_ref().expect("a row stands behind the header");
        let columns = header.columns.clone();
        let width = header.fields;
        if columns.iter().zip(COLUMNS).any(|(place, name)| place.is_none() && !OPTIONAL.contains(&name)) {
            return;
        }
        if fields.len() > width {
            let found = format!("{} behind the last column", shown(&fields[width..].join(",")));
            self.faults.put(line, Some((width + 1, "no column")), found, format!("{width} fields"));
        }
        let field = |column: usize| columns[column].and_then(|place| fields.get(place)).map_or("", String::as_str);
        let at = |column: usize| columns[column].map(|place| (place + 1, COLUMNS[column]));
        let label = field(0);
        if let Some((found, allowed)) = label_fault(label) {
            self.faults.put(line, at(0), found, allowed);
        }
        let modules = self.number(line, at(1), field(1), 1, 255);
        let minutes = self.number(line, at(2), field(2), 1, 1440);
        let departure = self.moment(line, at(4), field(4), DEPARTURE);
        let arrival = if field(5).is_empty() { 0 } else { self.moment(line, at(5), field(5), ARRIVAL) };
        self.note_far(line, label, "departs", field(4), departure);
        self.note_far(line, label, "arrives", field(5), arrival);
        let job = Job {
            label_len: label.len().min(255) as u8,
            modules: modules as u8,
            minutes: minutes as u16,
            earlier: 0,
            departure: departure as u16,
            arrival: arrival as u16,
        };
        let quoted = columns[AFTER].is_some_and(|place| quoted.get(place) == Some(&true));
        self.entries.push(Entry { line, label: label.into(), job, after: Field { text: field(AFTER).into(), quoted } });
    }

    /// The number in a field; where it is out of range, a fault and the least number.
    fn number(&mut self, line: usize, column: Option<(usize, &str)>, word: &str, low: u32, high: u32) -> u32 {
        let read = whole(word).filter(|number| (low..=high).contains(number));
        read.unwrap_or_else(|| {
            self.faults.put(line, column, shown(word), format!("a whole number from {low} to {high}"));
            low
        })
    }

    /// A minute counted from the start, up to the last one, or a time of day where the list has its start.
    fn moment(&mut self, line: usize, column: Option<(usize, &str)>, word: &str, (last, hours): (u32, &str)) -> u32 {
        let is_minute = !word.is_empty() && whole(word).is_some();
        let read = match self.clock {
            Some(clock) if !is_minute => clock.minute(word),
            _ => whole(word).filter(|_| is_minute),
        };
        read.filter(|minute| *minute <= last).unwrap_or_else(|| {
            let is_time = word.starts_with(|c: char| c.is_ascii_digit()) && word.contains([':', '.', 'h', 'H']);
            let allowed = match self.clock {
                None if is_time => {
                    format!("a minute from 0 to {last}; a time of day, hh:mm, only behind a line 'start,hh:mm'")
                }
                Some(_) if !is_minute && !word.is_empty() => {
                    format!("a minute from 0 to {last}, or a time hh:mm (hh:mm+1 on the next day) within {hours} from the start")
                }
                _ => format!("a whole number from 0 to {last}"),
            };
            self.faults.put(line, column, shown(word), allowed);
            0
        })
    }

    /// A time of day long behind the start may be meant for one before it.
    fn note_far(&mut self, line: usize, label: &str, what: &str, word: &str, minute: u32) {
        let Some(clock) = self.clock.filter(|_| minute > FAR && word.contains(':') && !word.contains('+')) else { return };
        self.notes.push(format!(
            "{}, line {line}: {} {what} at {word}; with a start at {} that is taken for {}, {} h {:02} min later",
            self.file,
            visible(label),
            clock.time(0),
            clock.time(minute),
            minute / 60,
            minute % 60
        ));
    }

    fn finish(mut self, last: usize) -> Result<List, Trouble> {
        let file = self.file;
        if self.header.is_none() {
            self.faults.put(last, None, "no header line", format!("a line with the columns {}", COLUMNS.join(",")));
        }
        if !self.names_cabinet {
            let line = self.header.as_ref().map_or(last, |header| header.line);
            let found = "no line 'cabinet' with a number of modules before the header";
            self.faults.put(line, None, found, "'cabinet,N', N from 1 to 64");
        }
        if let Some(entry) = self.entries.get(MOST_JOBS) {
            self.faults.put(entry.line, None, format!("job {} of {}", MOST_JOBS + 1, self.entries.len()), "up to 20 jobs");
            return Err(self.faults.told(&file));
        }
        let column = self.header.as_ref().and_then(|header| header.columns[AFTER]).map(|place| (place + 1, COLUMNS[AFTER]));
        let labels: Vec<String> = self.entries.iter().map(|entry| entry.label.clone()).collect();
        for entry in &mut self.entries {
            match after::jobs(&entry.after.text, entry.after.quoted, &labels) {
                Ok(jobs) => jobs.iter().for_each(|job| entry.job.earlier |= 1 << job),
                Err(wrong) => wrong.into_iter().for_each(|(found, allowed)| self.faults.put(entry.line, column, found, allowed)),
            }
        }
        let list = List {
            modules: self.modules.unwrap_or(1),
            changeover: self.changeover.unwrap_or(0),
            clock: self.clock,
            jobs: self.entries.iter().map(|entry| entry.job).collect(),
            labels: labels.concat().into_bytes(),
            lines: self.entries.iter().map(|entry| entry.line).collect(),
            notes: self.notes,
        };
        self.faults.or(&file, list)
    }
}
