//! Job lists of the benchmark: a name, N, the changeover and the jobs.
use crate::raw_sheet::Sheet;
use crate::Job;

#[derive(Clone, Debug)]
pub struct List {
    pub name: String,
    pub modules: u16,
    pub changeover: u16,
    pub jobs: Vec<Job>,
}

impl List {
    pub fn sheet(&self) -> Vec<u8> {
        let parts = Sheet::of(self.modules, self.jobs.clone());
        Sheet { changeover: self.changeover, ..parts }.bytes()
    }

    /// The same list with this changeover.
    pub fn resting(mut self, changeover: u16) -> List {
        self.changeover = changeover;
        self
    }

    /// The list as text: `name n N changeover`, then a line `modules minutes earlier-jobs-in-hexadecimal arrival` for each job.
    pub fn text(&self) -> String {
        let head = format!("{} {} {} {}\n", self.name, self.jobs.len(), self.modules, self.changeover);
        let line = |job: &Job| format!("{} {} {:x} {}\n", job.modules, job.minutes, job.earlier, job.arrival);
        head + &self.jobs.iter().map(line).collect::<String>()
    }
}

/// The lists of a text, or which line is wrong.
pub fn read(text: &str) -> Result<Vec<List>, String> {
    let mut lines = text.lines().enumerate().filter(|(_, line)| !line.trim().is_empty());
    let mut lists = Vec::new();
    while let Some((number, line)) = lines.next() {
        let (mut list, count) = head(line).ok_or_else(|| wrong(number, "expected 'name n N changeover'"))?;
        for _ in 0..count {
            let (number, line) = lines.next().ok_or_else(|| wrong(number, "the list has fewer jobs than it says"))?;
            list.jobs.push(job(line).ok_or_else(|| wrong(number, "expected 'modules minutes earlier-jobs arrival'"))?);
        }
        lists.push(list);
    }
    Ok(lists)
}

fn wrong(number: usize, why: &str) -> String {
    format!("line {}: {why}", number + 1)
}

/// Name, n, N and the changeover, which may be left out.
fn head(line: &str) -> Option<(List, usize)> {
    let mut words = line.split_whitespace();
    let name = words.next()?.to_string();
    let count = words.next()?.parse().ok()?;
    let modules = words.next()?.parse().ok()?;
    let changeover = words.next().map_or(Some(0), |word| word.parse().ok())?;
    Some((List { name, modules, changeover, jobs: Vec::new() }, count))
}

/// A job; its arrival may be left out.
fn job(line: &str) -> Option<Job> {
    let mut words = line.split_whitespace();
    Some(Job {
        modules: words.next()?.parse().ok()?,
        minutes: words.next()?.parse().ok()?,
        earlier: u32::from_str_radix(words.next()?, 16).ok()?,
        arrival: words.next().map_or(Some(0), |word| word.parse().ok())?,
        ..Job::default()
    })
}

#[test]
fn a_changeover_may_be_left_out() {
    let lists = read("one 1 4\n1 5 0\ntwo 1 4 10\n1 5 0\n").unwrap();
    assert_eq!((lists[0].changeover, lists[1].changeover), (0, 10));
    assert_eq!(read(&lists[1].text()).unwrap()[0].changeover, 10);
    assert!(read("two 0 4 x\n").is_err());
}

#[test]
fn an_arrival_may_be_left_out() {
    let lists = read("two 2 4\n1 5 0\n3 7 1 90\n").unwrap();
    assert_eq!((lists[0].jobs[0].arrival, lists[0].jobs[1].arrival), (0, 90));
    assert_eq!(read(&lists[0].text()).unwrap()[0].jobs, lists[0].jobs);
    assert!(read("two 1 4\n1 5 0 x\n").is_err());
}
