//! Which tint each bar has: bars that touch differ where there are tints enough.
use crate::planned::{Planned, PlannedJob};
use depot_host::drawing::colours::TINTS;
use depot_host::Row;

/// The class of each job's bars: `late`, or a tint.
pub fn classes(plan: &Planned) -> Vec<String> {
    let mut tints: Vec<usize> = Vec::new();
    for job in &plan.jobs {
        let near = |tint: &usize| (0..tints.len()).any(|other| tints[other] == *tint && touch(&plan.jobs[other].row, &job.row));
        let free = (0..TINTS).map(|turn| (tints.len() + turn) % TINTS).find(|tint| !near(tint));
        tints.push(free.unwrap_or(tints.len() % TINTS));
    }
    plan.jobs.iter().zip(tints).map(|(job, tint)| class(job, tint)).collect()
}

fn class(job: &PlannedJob, tint: usize) -> String {
    if job.is_late() {
        return "late".into();
    }
    format!("t{tint}")
}

/// Whether two bars lie side by side or one behind the other.
fn touch(a: &Row, b: &Row) -> bool {
    let around = a.modules | a.modules << 1 | a.modules >> 1;
    a.start <= b.end && b.start <= a.end && around & b.modules != 0
}

#[test]
fn bars_that_touch() {
    let row = |start, end, modules| Row { start, end, modules };
    assert!(touch(&row(0, 10, 1), &row(10, 20, 1)));
    assert!(touch(&row(0, 10, 1), &row(5, 20, 2)));
    assert!(!touch(&row(0, 10, 1), &row(11, 20, 1)));
    assert!(!touch(&row(0, 10, 1), &row(0, 10, 4)));
}
