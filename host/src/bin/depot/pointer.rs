//! Where to look when the library has refused a sheet for a job that it does not name. Help, not an answer.
use crate::planned::{labels, Yard};
use depot_host::{read, Job, Refusal, MOST_MODULES};

/// Says on standard error that a file was refused, with what may help.
pub fn tell(file: &str, refusal: Refusal, help: &[String]) {
    let number = refusal.number();
    eprintln!("{file}: refused {number}: {refusal}");
    help.iter().for_each(|line| eprintln!("  {line}"));
    eprintln!("  'depot explain {number}' says what to do");
}

/// Lines that point at jobs of the sheet.
pub fn lines(yard: &Yard, refusal: Refusal) -> Vec<String> {
    let Ok(reading) = read(&yard.sheet) else { return Vec::new() };
    let labels = labels(&yard.sheet, &reading);
    let name = |job: usize| name(yard, &labels, job);
    match refusal {
        Refusal::OverWide => {
            let modules = reading.modules;
            let wide = (0..labels.len()).filter(|job| u16::from(reading.jobs[*job].modules) > modules);
            let line =
                |job: usize| format!("{} needs {} modules; the cabinet has {modules}", name(job), reading.jobs[job].modules);
            wide.map(line).collect()
        }
        Refusal::Circular => {
            let names: Vec<String> = circle(&reading.jobs).into_iter().map(name).collect();
            match &names[..] {
                [] => Vec::new(),
                [one] => vec![format!("{one} waits for itself")],
                [first, ..] => vec![format!("each waits for the next: {}, {first}", names.join(", "))],
            }
        }
        _ => Vec::new(),
    }
}

/// A job by its label and its line, or its number where there is no list.
fn name(yard: &Yard, labels: &[String], job: usize) -> String {
    match yard.lines.get(job) {
        Some(line) => format!("{} (line {line})", labels[job]),
        None => format!("{} (job {job})", labels[job]),
    }
}

/// Lines on why no cabinet is enough, where one job or one chain of jobs decides it.
pub fn too_late(yard: &Yard, by: u16) -> Vec<String> {
    let Ok(reading) = read(&yard.sheet) else { return Vec::new() };
    let labels = labels(&yard.sheet, &reading);
    let widest = (0..labels.len()).max_by_key(|job| (reading.jobs[*job].modules, usize::MAX - job));
    if let Some(job) = widest.filter(|job| u16::from(reading.jobs[*job].modules) > MOST_MODULES) {
        let needs = reading.jobs[job].modules;
        return vec![format!("{} needs {needs} modules; no cabinet has more than {MOST_MODULES}", name(yard, &labels, job))];
    }
    let (end, chain) = longest_chain(&reading.jobs);
    if end <= u32::from(by) {
        return Vec::new();
    }
    let when = yard.clock.map_or(format!("minute {end}"), |clock| clock.time(end));
    let late = format!("{when}, {} min too late", end - u32::from(by));
    let names: Vec<String> = chain.into_iter().map(|job| name(yard, &labels, job)).collect();
    vec![match &names[..] {
        [one] => format!("{one} alone cannot end before {late}, whatever the cabinet"),
        _ => format!("{}, each after the one before, cannot end before {late}, whatever the cabinet", names.join(", ")),
    }]
}

/// Jobs each of which waits for the one before, of those that end last if all had modules at once, and when they end. No job waits for itself.
fn longest_chain(jobs: &[Job]) -> (u32, Vec<usize>) {
    let mut ends: Vec<Option<(u32, Option<usize>)>> = vec![None; jobs.len()];
    while ends.iter().any(Option::is_none) {
        for job in 0..jobs.len() {
            let earlier: Vec<usize> = (0..jobs.len()).filter(|i| jobs[job].earlier >> i & 1 == 1).collect();
            let known: Option<Vec<(u32, usize)>> = earlier.iter().map(|i| ends[*i].map(|(end, _)| (end, *i))).collect();
            if let Some(known) = known {
                let arrival = u32::from(jobs[job].arrival);
                let last = known.into_iter().max_by_key(|(end, i)| (*end, usize::MAX - i)).filter(|(end, _)| *end > arrival);
                let start = last.map_or(arrival, |(end, _)| end);
                ends[job] = Some((start + u32::from(jobs[job].minutes), last.map(|(_, i)| i)));
            }
        }
    }
    let end_of = |job: usize| ends[job].map_or(0, |(end, _)| end);
    let Some(last) = (0..jobs.len()).max_by_key(|job| (end_of(*job), usize::MAX - job)) else { return (0, Vec::new()) };
    let mut chain = vec![last];
    while let Some((_, Some(before))) = ends[chain[chain.len() - 1]] {
        chain.push(before);
    }
    chain.reverse();
    (end_of(last), chain)
}

/// Jobs of which each waits for the next and the last for the first; none where there is no such circle.
fn circle(jobs: &[Job]) -> Vec<usize> {
    let mut waiting: Vec<usize> = (0..jobs.len()).collect();
    let waits = |job: usize, others: &[usize]| others.iter().copied().find(|other| jobs[job].earlier >> other & 1 == 1);
    loop {
        let left: Vec<usize> = waiting.iter().copied().filter(|job| waits(*job, &waiting).is_some()).collect();
        if left.len() == waiting.len() {
            break;
        }
        waiting = left;
    }
    let Some(first) = waiting.first() else { return Vec::new() };
    let mut path = vec![*first];
    loop {
        let next = waits(path[path.len() - 1], &waiting).expect("every job that is left waits for one of them");
        if let Some(place) = path.iter().position(|job| *job == next) {
            return path.split_off(place);
        }
        path.push(next);
    }
}

#[cfg(test)]
mod tests {
    use super::*;

    fn jobs(earlier: &[u32]) -> Vec<Job> {
        earlier.iter().map(|earlier| Job { earlier: *earlier, ..Job::default() }).collect()
    }

    #[test]
    fn chains() {
        let job = |minutes, earlier, arrival| Job { minutes, earlier, arrival, ..Job::default() };
        assert_eq!(longest_chain(&[]), (0, vec![]));
        assert_eq!(longest_chain(&[job(5, 0, 3)]), (8, vec![0]));
        assert_eq!(longest_chain(&[job(5, 0b10, 0), job(7, 0, 0), job(11, 0, 0)]), (12, vec![1, 0]));
        assert_eq!(longest_chain(&[job(5, 0b10, 40), job(7, 0, 0)]), (45, vec![0]), "it waits for its bus");
    }

    #[test]
    fn circles() {
        assert_eq!(circle(&jobs(&[])), []);
        assert_eq!(circle(&jobs(&[0, 1, 2])), []);
        assert_eq!(circle(&jobs(&[1])), [0]);
        assert_eq!(circle(&jobs(&[0, 0b100, 0b010])), [1, 2]);
        assert_eq!(circle(&jobs(&[0b0010, 0b0100, 0b1000, 0b0010])), [1, 2, 3]);
    }
}
