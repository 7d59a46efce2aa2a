//! Planning: a line for each group of lists and each length of the working memory.
use crate::ablation;
use crate::child::{call, Side, Took};
use crate::options::{Group, Options};
use crate::picture::{self, Line, Panel};
use crate::times::{Times, HEADS};
use depot_host::lists::List;
use depot_host::plain_search::Rules;
use depot_host::units::in_bytes;
use std::fs;
use std::time::Duration;

const MEMORY: [usize; 5] = [0, 4 << 10, 64 << 10, 1 << 20, 16 << 20];

/// A list that the library solved before the cut-off, and the same search in plain Rust where it did too.
struct Solved {
    library: Took,
    plain: Option<Took>,
}

/// Lists whose jobs arrive later: the library beside the plain search, and that with the rules that look at arrivals left out.
pub fn measure_arrivals(options: &Options) {
    measure_rules(&options.arriving, &Rules::each_of_arrivals_left_out(), options);
}

/// The same of lists whose modules rest between two jobs, and of the rules that look at the changeover.
pub fn measure_changeovers(options: &Options) {
    measure_rules(&options.resting, &Rules::each_of_changeovers_left_out(), options);
}

fn measure_rules(groups: &[Group], left_out: &[(&'static str, Rules)], options: &Options) {
    let with_each_memory = |measure: &dyn Fn(&Group, usize)| {
        let memory = options.memory_or(&[1 << 20]);
        groups.iter().for_each(|group| memory.iter().for_each(|bytes| measure(group, *bytes)));
    };
    print_heads(options);
    with_each_memory(&|group, memory| drop(measure_with(group, memory, options)));
    with_each_memory(&|group, memory| ablation::of_rules(left_out, group, memory, options.limit));
}

fn print_heads(options: &Options) {
    println!(
        "planning, cut-off {} s; times in seconds of the processor, 'rate' in millions of part-plans a second",
        options.cutoff.as_secs_f64()
    );
    println!("{:15} {:>7} {HEADS} {:>14} {:>6} {:>7}", "lists", "memory", "part-plans", "rate", "/plain");
}

pub fn measure(options: &Options) {
    let cutoff = options.cutoff;
    print_heads(options);
    let panels: Vec<Panel> = options.groups.iter().map(|group| measure_group(group, options)).collect();
    if let Some(file) = &options.svg {
        fs::write(file, picture::draw(&panels, cutoff.as_secs_f64())).unwrap_or_else(|why| panic!("{file}: {why}"));
    }
}

/// The group's lines of the table; what the picture shows of them.
fn measure_group(group: &Group, options: &Options) -> Panel {
    let mut panel = Panel { name: group.name.clone(), lists: group.lists.len(), lines: Vec::new() };
    for memory in options.memory_or(&MEMORY) {
        let runs = measure_with(group, memory, options);
        panel.lines.push(Line { name: memory_in_words(memory), times: times(&runs, options.cutoff).ended });
    }
    panel
}

/// The group's line with this working memory.
fn measure_with(group: &Group, memory: usize, options: &Options) -> Vec<Option<Solved>> {
    let runs: Vec<Option<Solved>> = group.lists.iter().map(|list| solve(list, memory, options)).collect();
    if options.each {
        group.lists.iter().zip(&runs).for_each(|(list, run)| print_one(list, run));
    }
    print_line(group, memory, &runs, options.cutoff);
    runs
}

fn memory_in_words(bytes: usize) -> String {
    match in_bytes(bytes) {
        length if length == "0" => "none".into(),
        length if length.ends_with(['K', 'M']) => length.replace('K', " KiB").replace('M', " MiB"),
        length => length + " bytes",
    }
}

fn times(runs: &[Option<Solved>], cutoff: Duration) -> Times {
    let seconds: Vec<Option<f64>> = runs.iter().map(|run| run.as_ref().map(|run| run.library.seconds)).collect();
    Times::of(&seconds, cutoff)
}

fn solve(list: &List, memory: usize, options: &Options) -> Option<Solved> {
    let library = call(Side::Library, list, memory, options.cutoff)?;
    let plain = call(if options.bare { Side::Bare } else { Side::Plain }, list, memory, 2 * options.cutoff);
    Some(Solved { library, plain })
}

fn print_one(list: &List, run: &Option<Solved>) {
    match run {
        Some(Solved { library, plain: Some(plain) }) => {
            let ratio = library.seconds / plain.seconds;
            println!("  {:28} {:>10.6} {:>14} {ratio:>7.2}", list.name, library.seconds, plain.visited);
        }
        Some(Solved { library, plain: None }) => println!("  {:28} {:>10.6}", list.name, library.seconds),
        None => println!("  {:28} {:>10}", list.name, "-"),
    }
}

fn print_line(group: &Group, memory: usize, runs: &[Option<Solved>], cutoff: Duration) {
    // the part-plans of the plain search are the library's: both make the same cuts in the same order
    let both: Vec<(Took, Took)> = runs.iter().flatten().filter_map(|run| Some((run.library, run.plain?))).collect();
    let visited: u64 = both.iter().map(|(_, plain)| plain.visited).sum();
    let library: f64 = both.iter().map(|(library, _)| library.seconds).sum();
    let plain: f64 = both.iter().map(|(_, plain)| plain.seconds).sum();
    println!(
        "{:15} {:>7} {} {visited:>14} {:>6.2} {:>7.2}",
        group.name,
        in_bytes(memory),
        times(runs, cutoff),
        visited as f64 / library / 1e6,
        library / plain,
    );
}
