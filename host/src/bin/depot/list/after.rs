//! The column `after`: the jobs that a job waits for, by label or number, with a space between them. A label with a space in it stands
//! in double quotes. A cell without such a label is read as it always was: word by word.
use super::is_number;
use super::words::{number_of, shown, Found};

/// The jobs that a cell names, or what is wrong in it. `quoted` says that the whole cell stood in double quotes.
pub fn jobs(cell: &str, quoted: bool, labels: &[String]) -> Result<Vec<usize>, Vec<Found>> {
    let words: Vec<Result<usize, Found>> = cell.split_whitespace().map(|word| number_of(word, labels)).collect();
    if words.iter().all(Result::is_ok) {
        return Ok(words.into_iter().flatten().collect());
    }
    if quoted && cell.contains(' ') && labels.iter().any(|label| label == cell) {
        return number_of(cell, labels).map(|job| vec![job]).map_err(|found| vec![found]);
    }
    if let Some(items) = items(cell) {
        return settled(items.into_iter().map(|item| item.job(labels)));
    }
    let bare: Vec<Found> =
        labels.iter().filter(|label| label.contains(' ') && cell.contains(*label)).map(|label| unquoted(label)).collect();
    if !bare.is_empty() {
        return Err(bare);
    }
    settled(words.into_iter())
}

/// The jobs of a cell as it is written.
pub fn cell(jobs: &[usize], labels: &[String]) -> String {
    let written = |by_number: bool| {
        let names = jobs.iter().map(|job| if by_number { format!("#{job}") } else { name(labels, *job) });
        names.collect::<Vec<_>>().join(" ")
    };
    let by_label = written(false);
    let is_read = self::jobs(&by_label, false, labels).is_ok_and(|read| read == jobs);
    if is_read {
        by_label
    } else {
        written(true)
    }
}

/// A job's name: its label where that names it alone, else its number.
fn name(labels: &[String], job: usize) -> String {
    let label = &labels[job];
    let alone = labels.iter().filter(|other| *other == label).count() == 1;
    if !alone || is_number(label) {
        return format!("#{job}");
    }
    if label.contains(' ') {
        format!("\"{label}\"")
    } else {
        label.clone()
    }
}

fn unquoted(label: &str) -> Found {
    (
        format!("{} without double quotes", shown(label)),
        format!("\"{label}\": a label with a space in it stands in double quotes"),
    )
}

/// All jobs, or all that is wrong.
fn settled(found: impl Iterator<Item = Result<usize, Found>>) -> Result<Vec<usize>, Vec<Found>> {
    let (mut jobs, mut wrong) = (Vec::new(), Vec::new());
    for one in found {
        match one {
            Ok(job) => jobs.push(job),
            Err(fault) => wrong.push(fault),
        }
    }
    if wrong.is_empty() {
        Ok(jobs)
    } else {
        Err(wrong)
    }
}

/// A word of a cell, or what stands in double quotes.
enum Item<'a> {
    Word(&'a str),
    Quoted(&'a str),
}

impl Item<'_> {
    fn job(&self, labels: &[String]) -> Result<usize, Found> {
        match self {
            Item::Word(word) => number_of(word, labels),
            Item::Quoted(label) => number_of(label, labels),
        }
    }
}

/// The items of a cell with double quotes in it; none where they do not stand around whole items.
fn items(cell: &str) -> Option<Vec<Item<'_>>> {
    let mut items = Vec::new();
    let mut rest = cell.trim_start();
    let mut some = false;
    while !rest.is_empty() {
        let (item, behind) = match rest.strip_prefix('"') {
            Some(quoted) => {
                some = true;
                let (label, behind) = quoted.split_once('"')?;
                (Item::Quoted(label), behind)
            }
            None => {
                let (word, behind) = rest.split_at(rest.find(char::is_whitespace).unwrap_or(rest.len()));
                (Item::Word(word), behind)
            }
        };
        if !behind.is_empty() && !behind.starts_with(char::is_whitespace) {
            return None;
        }
        items.push(item);
        rest = behind.trim_start();
    }
    some.then_some(items)
}

#[cfg(test)]
mod tests {
    use super::*;

    fn labels(labels: &[&str]) -> Vec<String> {
        labels.iter().map(|label| label.to_string()).collect()
    }

    #[test]
    fn cells() {
        let labels = labels(&["N 417 B", "A301", "A", "B", "A B", "x\"", "\"y\""]);
        let of = |cell: &str, quoted| jobs(cell, quoted, &labels);
        assert_eq!(of("", false), Ok(vec![]));
        assert_eq!(of(" A301  #0 ", false), Ok(vec![1, 0]));
        assert_eq!(of("\"N 417 B\" A301", false), Ok(vec![0, 1]));
        assert_eq!(of("#2 \"N 417 B\"", false), Ok(vec![2, 0]));
        assert_eq!(of("N 417 B", true), Ok(vec![0]));
        // as always, where every word names a job
        assert_eq!(of("A B", true), Ok(vec![2, 3]));
        assert_eq!(of("\"A B\"", false), Ok(vec![4]));
        assert_eq!(of("x\" \"y\"", false), Ok(vec![5, 6]));
        let bare = of("N 417 B", false).unwrap_err();
        assert_eq!(bare[0].1, "\"N 417 B\": a label with a space in it stands in double quotes");
        assert_eq!(of("A301 N 417 B", false).unwrap_err(), bare);
        assert_eq!(of("Z \"N 418 B\"", false).unwrap_err().len(), 2);
        assert!(of("\"N 417 B", false).is_err() && of("\"N 417 B\"A301", false).is_err());
    }

    #[test]
    fn every_cell_is_read_as_it_was_written() {
        let labels = labels(&["N 417 B", "A301", "A", "B", "A B", "x\"", "\"A", "B\"", "#1", "A301", "p\"q r"]);
        for set in 0..1 << labels.len() {
            let chosen: Vec<usize> = (0..labels.len()).filter(|job| set >> job & 1 == 1).collect();
            assert_eq!(jobs(&cell(&chosen, &labels), false, &labels), Ok(chosen));
        }
    }
}
