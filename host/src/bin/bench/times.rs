//! What a table says of the times of some calls: how many ended, the median and the worst.
use std::fmt;
use std::time::Duration;

pub struct Times {
    /// The seconds of the calls that ended by the cut-off, sorted.
    pub ended: Vec<f64>,
    calls: usize,
    cutoff: Duration,
}

impl Times {
    /// Of the calls' seconds, none at the cut-off.
    pub fn of(seconds: &[Option<f64>], cutoff: Duration) -> Times {
        let mut ended: Vec<f64> = seconds.iter().flatten().copied().collect();
        ended.sort_by(f64::total_cmp);
        Times { ended, calls: seconds.len(), cutoff }
    }

    fn at(&self, place: usize) -> String {
        self.ended.get(place).map_or(format!("> {}", self.cutoff.as_secs_f64()), |seconds| format!("{seconds:.6}"))
    }
}

/// The heads of the columns.
pub const HEADS: &str = "   solved     median      worst";

impl fmt::Display for Times {
    fn fmt(&self, to: &mut fmt::Formatter) -> fmt::Result {
        let solved = format!("{}/{}", self.ended.len(), self.calls);
        write!(to, "{solved:>9} {:>10} {:>10}", self.at(self.calls / 2), self.at(self.calls.saturating_sub(1)))
    }
}

#[test]
fn calls_that_do_not_end_are_the_longest() {
    let times = |seconds: &[Option<f64>]| Times::of(seconds, Duration::from_secs(2)).to_string();
    assert_eq!(times(&[Some(0.5), None, Some(0.25)]), "      2/3   0.500000        > 2");
    assert_eq!(times(&[Some(0.5)]).len(), HEADS.len());
}
