//! The order of the jobs on a sheet. Of plans that end alike it decides (docs/REQUIREMENTS.md, P-14), so a list may be planned in an order
//! other than its own; what the library answers is put back into the list's then.
use crate::{label_of, write, Card, Job, JobSlack, Reading, LONGEST_SHEET};

/// The list's job at each place of the sheet.
#[derive(Clone, Debug, PartialEq, Eq)]
pub struct Order(Vec<usize>);

impl Order {
    /// So many jobs as they stand.
    pub fn as_listed(jobs: usize) -> Order {
        Order::by(jobs, |_| ())
    }

    /// Those that leave first in front; of those that leave together, those that arrive first.
    pub fn by_departure(jobs: &[Job]) -> Order {
        Order::by(jobs.len(), |job| (jobs[job].departure, jobs[job].arrival))
    }

    /// The jobs by a key, those with equal keys as they stand.
    pub fn by<K: Ord>(jobs: usize, key: impl Fn(usize) -> K) -> Order {
        let mut order: Vec<usize> = (0..jobs).collect();
        order.sort_by_key(|job| key(*job));
        Order(order)
    }

    /// The list's jobs in this order.
    pub fn jobs(&self) -> &[usize] {
        &self.0
    }

    /// The place of a job of the list on the sheet.
    pub fn place(&self, job: usize) -> usize {
        self.0.iter().position(|other| *other == job).expect("every job has a place")
    }

    pub fn is_the_list_s(&self) -> bool {
        self.0.is_sorted()
    }

    /// The sheet of these figures in this order; the labels are those of the list's own sheet.
    pub fn sheet(&self, list: &[u8], figures: &Reading) -> Vec<u8> {
        let mut places = vec![0; self.0.len()];
        self.0.iter().enumerate().for_each(|(place, job)| places[*job] = place);
        let moved = |job: &usize| Job { earlier: mapped(figures.jobs[*job].earlier, &places), ..figures.jobs[*job] };
        let jobs: Vec<Job> = self.0.iter().map(moved).collect();
        let label = |job: &usize| label_of(list, figures, *job).expect("a list's sheet has every label");
        let labels: Vec<u8> = self.0.iter().flat_map(label).copied().collect();
        let mut sheet = vec![0; LONGEST_SHEET];
        let length =
            write(&jobs, &labels, figures.modules, figures.changeover, &mut sheet).expect("the jobs of a sheet that reads");
        sheet.truncate(length);
        sheet
    }

    /// What is said of each job of the sheet, in the list's order.
    fn back<T: Copy>(&self, of_sheet: &[T]) -> Vec<T> {
        let mut of_list = of_sheet.to_vec();
        self.0.iter().zip(of_sheet).for_each(|(job, one)| of_list[*job] = *one);
        of_list
    }

    /// The card of the sheet with the list's numbers, its rows in the list's order.
    pub fn card_back(&self, card: &Card) -> Card {
        let order = card.order.iter().map(|place| self.0[usize::from(*place)] as u8).collect();
        Card { rows: self.back(&card.rows), order, end: card.end }
    }

    /// The slacks of the sheet with the list's numbers, in the list's order.
    pub fn slacks_back(&self, slacks: &[JobSlack]) -> Vec<JobSlack> {
        let with_numbers = |slack: JobSlack| JobSlack { implied: mapped(slack.implied, &self.0), ..slack };
        self.back(slacks).into_iter().map(with_numbers).collect()
    }
}

/// The set of the numbers that stand at these numbers.
fn mapped(set: u32, numbers: &[usize]) -> u32 {
    numbers.iter().enumerate().filter(|(i, _)| set >> i & 1 == 1).fold(0, |mapped, (_, number)| mapped | 1 << number)
}

#[cfg(test)]
mod tests {
    use super::*;
    use crate::Row;

    fn job(departure: u16, arrival: u16) -> Job {
        Job { label_len: 1, modules: 1, minutes: 5, departure, arrival, ..Job::default() }
    }

    #[test]
    fn departures_then_arrivals_then_lines() {
        let order = Order::by_departure(&[job(30, 0), job(20, 9), job(20, 0), job(30, 0), job(0, 50)]);
        assert_eq!(order.jobs(), [4, 2, 1, 0, 3]);
        assert!(!order.is_the_list_s() && Order::as_listed(5).is_the_list_s());
    }

    #[test]
    fn answers_are_put_back() {
        let order = Order(vec![2, 0, 1]);
        let row = |start| Row { start, end: start + 1, modules: 1 };
        let card = Card { rows: vec![row(20), row(0), row(10)], order: vec![1, 2, 0], end: 21 };
        let back = Card { rows: vec![row(0), row(10), row(20)], order: vec![0, 1, 2], end: 21 };
        assert_eq!(order.card_back(&card), back);
        let slack = |latest_start, implied| JobSlack { latest_start, slack: 0, implied };
        let slacks = [slack(2, 0b110), slack(0, 0), slack(1, 0b001)];
        assert_eq!(order.slacks_back(&slacks), [slack(0, 0), slack(1, 0b100), slack(2, 0b011)]);
    }

    #[test]
    fn waits_are_renumbered() {
        let waiting = |earlier, departure| Job { earlier, ..job(departure, 0) };
        let figures = Reading { jobs: vec![waiting(0b100, 30), waiting(0b101, 20), waiting(0, 10)], modules: 2, changeover: 5 };
        let list = Order::as_listed(3).sheet(b"abc", &figures);
        assert_eq!(crate::read(&list), Ok(figures.clone()));
        let sheet = Order::by_departure(&figures.jobs).sheet(&list, &figures);
        assert!(sheet.starts_with(b"cba"));
        let jobs = vec![waiting(0, 10), waiting(0b101, 20), waiting(0b001, 30)];
        assert_eq!(crate::read(&sheet), Ok(Reading { jobs, ..figures }));
    }
}
