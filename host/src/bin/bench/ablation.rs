//! What each rule of the search pays: the search in plain Rust with one rule left out, a table for each group of lists.
use crate::clock;
use crate::options::{Group, Options};
use depot_host::plain_search::{run_with, Outcome, Rules, Tables};
use depot_host::units::in_bytes;

/// The lists with some rules: for each how many part-plans were visited, none where it was given up; and the time of all together.
struct Row {
    left_out: &'static str,
    visited: Vec<Option<u64>>,
    seconds: f64,
}

pub fn measure(options: &Options) {
    for group in &options.groups {
        for memory in options.memory_or(&[1 << 20]) {
            let mut rows = rows(&Rules::each_left_out(), group, memory, options.limit);
            if memory > 0 {
                rows.push(row("memory", Rules::default(), group, 0, options.limit));
            }
            print_table(group, memory, options.limit, &rows);
        }
    }
}

/// The group with all rules, and with each of these left out.
pub fn of_rules(left_out: &[(&'static str, Rules)], group: &Group, memory: usize, limit: u64) {
    print_table(group, memory, limit, &rows(left_out, group, memory, limit));
}

/// All rules first, then each left out.
fn rows(left_out: &[(&'static str, Rules)], group: &Group, memory: usize, limit: u64) -> Vec<Row> {
    let all = [("-", Rules::default())];
    all.iter().chain(left_out).map(|(name, rules)| row(name, *rules, group, memory, limit)).collect()
}

fn row(left_out: &'static str, rules: Rules, group: &Group, memory: usize, limit: u64) -> Row {
    let rules = Rules { most_visited: limit, ..rules };
    let mut work = vec![0; memory];
    let start = clock::now();
    let mut visited = |list| match run_with(&Tables::of(list), &mut work, &rules) {
        Outcome::Found(found) => Some(found.visited),
        Outcome::GivenUp => None,
        Outcome::NoOrder => panic!("{}: the list has no order", list.name),
    };
    let visited = group.lists.iter().map(&mut visited).collect();
    Row { left_out, visited, seconds: clock::now() - start }
}

fn print_table(group: &Group, memory: usize, limit: u64, rows: &[Row]) {
    let lists = group.lists.len();
    let common: Vec<usize> = (0..lists).filter(|list| rows.iter().all(|row| row.visited[*list].is_some())).collect();
    println!(
        "{}, memory {}, at most {limit} part-plans a list; 'part-plans' is the geometric mean of the {} lists that every row solves",
        group.name,
        in_bytes(memory),
        common.len()
    );
    println!("{:18} {:>9} {:>12} {:>7} {:>9}", "left out", "solved", "part-plans", "times", "seconds");
    let all = mean(&rows[0], &common);
    for row in rows {
        let solved = format!("{}/{lists}", row.visited.iter().flatten().count());
        let mean = mean(row, &common);
        println!("{:18} {solved:>9} {mean:>12.1} {:>7.2} {:>9.3}", row.left_out, mean / all, row.seconds);
    }
}

fn mean(row: &Row, lists: &[usize]) -> f64 {
    let logarithms: f64 = lists.iter().filter_map(|list| row.visited[*list]).map(|visited| (visited as f64).ln()).sum();
    (logarithms / lists.len() as f64).exp()
}
