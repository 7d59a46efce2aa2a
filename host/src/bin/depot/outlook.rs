//! What a list is in for before it is planned: its job sets, and what the benchmark says of lists of its size.
use depot_host::{read, sets, Refusal};

/// How many lists of each size the benchmark has, and how many of them the library planned within half a second with 1 MiB: docs/SEARCH.md,
/// 'Times'.
pub const LISTS: usize = 113;
const PLANNED: [(usize, usize); 5] = [(10, 113), (12, 113), (14, 113), (16, 109), (20, 86)];

pub struct Outlook {
    pub jobs: usize,
    /// How many sets of jobs a part-plan can hold.
    pub sets: u32,
}

impl Outlook {
    pub fn of(sheet: &[u8]) -> Result<Outlook, Refusal> {
        let sets = sets(sheet)?;
        Ok(Outlook { jobs: read(sheet)?.jobs.len(), sets })
    }

    /// How many there would be if no job waited for another.
    pub fn without_waits(&self) -> u32 {
        1 << self.jobs
    }

    /// The benchmark's size for this list, the next that is no smaller, and how many of its lists were planned within half a second.
    pub fn benchmark(&self) -> (usize, usize) {
        *PLANNED.iter().find(|(size, _)| self.jobs <= *size).expect("a sheet has no more than 20 jobs")
    }

    pub fn sets_in_words(&self) -> String {
        let plural = if self.sets == 1 { "set" } else { "sets" };
        let sets = format!("{} {plural} of jobs can be placed", in_groups(self.sets));
        if self.sets == self.without_waits() {
            return format!("{sets}: no job waits for another.");
        }
        format!("{sets}; without any waits it would be {}.", in_groups(self.without_waits()))
    }

    pub fn benchmark_in_words(&self) -> String {
        match self.benchmark() {
            (size, LISTS) => format!("The benchmark planned all its {LISTS} lists of {size} jobs within half a second."),
            (size, planned) => format!(
                "The benchmark planned {planned} of its {LISTS} lists of {size} jobs within half a second; the others take longer, some very long."
            ),
        }
    }
}

/// A number with commas between its thousands.
pub fn in_groups(number: impl ToString) -> String {
    let digits = number.to_string();
    let mut grouped = String::new();
    for (place, digit) in digits.chars().enumerate() {
        if place > 0 && (digits.len() - place).is_multiple_of(3) {
            grouped.push(',');
        }
        grouped.push(digit);
    }
    grouped
}

#[test]
fn numbers_in_groups() {
    assert_eq!([0, 999, 1000, 16_384, 1_048_576].map(in_groups), ["0", "999", "1,000", "16,384", "1,048,576"]);
}

#[test]
fn figures_are_the_document_s() {
    let text = std::fs::read_to_string(concat!(env!("CARGO_MANIFEST_DIR"), "/../docs/SEARCH.md")).expect("the document is there");
    let words = |line: &str| line.split_whitespace().map(String::from).collect::<Vec<_>>();
    for (size, planned) in PLANNED {
        let row = words(&format!("n = {size} 1M {planned}/{LISTS}"));
        assert!(text.lines().any(|line| words(line).starts_with(&row)), "{size} jobs");
    }
}
