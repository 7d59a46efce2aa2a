//! The earliest end by MiniZinc's solver Gecode, beside planning. Gecode has no tie rule: it looks for the end alone.
use crate::child::{self, Side};
use crate::options::{Group, Options};
use crate::times::{Times, HEADS};
use crate::{clock, model, process};
use depot_host::lists::List;
use depot_host::units::in_bytes;
use std::process::{Command, Stdio};
use std::time::Duration;

/// How long the solver may take beside its search: to start and to read the model.
const START: Duration = Duration::from_millis(100);

/// An end that Gecode shows to be the earliest, and the seconds that it took.
struct Solved {
    end: u16,
    seconds: f64,
}

pub fn measure(options: &Options) {
    if !is_installed() {
        return println!("gecode: minizinc and fzn-gecode are not installed; nothing is compared");
    }
    println!("earliest end, cut-off {} s; processor times in seconds; Gecode's without its start", options.cutoff.as_secs_f64());
    println!("{:14} {:>8} {:>7} {HEADS}", "lists", "by", "memory");
    for group in &options.groups {
        for memory in options.memory_or(&[1 << 20]) {
            compare(group, memory, options);
        }
    }
}

fn is_installed() -> bool {
    let runs = |program: &str, word: &str| {
        let mut command = Command::new(program);
        command.arg(word).stdin(Stdio::null()).stdout(Stdio::null()).stderr(Stdio::null()).status().is_ok()
    };
    runs("minizinc", "--version") && runs("fzn-gecode", "--help")
}

fn compare(group: &Group, memory: usize, options: &Options) {
    let (mut ours, mut theirs) = (Vec::new(), Vec::new());
    for list in &group.lists {
        let planned = child::call(Side::Library, list, memory, options.cutoff);
        let solved = solve(list, options.cutoff);
        if let (Some(planned), Some(solved)) = (&planned, &solved) {
            assert_eq!(planned.end, solved.end, "Gecode finds another end than planning:\n{}", list.text());
        }
        let (planned, solved) = (planned.map(|took| took.seconds), solved.map(|solved| solved.seconds));
        if options.each {
            let time = |seconds: Option<f64>| seconds.map_or("-".into(), |seconds| format!("{seconds:.6}"));
            println!("  {:28} {:>10} {:>10}", list.name, time(planned), time(solved));
        }
        ours.push(planned);
        theirs.push(solved);
    }
    for (by, memory, seconds) in [("planning", in_bytes(memory), ours), ("Gecode", String::new(), theirs)] {
        println!("{:14} {by:>8} {memory:>7} {}", group.name, Times::of(&seconds, options.cutoff));
    }
}

/// Compiles the model, which does not count, and solves it; none at the cut-off.
fn solve(list: &List, cutoff: Duration) -> Option<Solved> {
    let mut compile = Command::new("minizinc");
    compile.args(["-c", "--solver", "gecode", "--output-fzn-to-stdout", "--no-output-ozn", "-"]).stderr(Stdio::null());
    let flat = process::output(&mut compile, &model::of(list), Duration::from_secs(60)).expect("minizinc runs")?;
    let before = clock::of_ended();
    let mut search = Command::new("fzn-gecode");
    search.args(["-s", "-"]);
    let said = process::output(&mut search, &flat, cutoff + START).expect("fzn-gecode runs")?;
    let used = clock::of_ended() - before;
    let solved = read(&said, used).unwrap_or_else(|| panic!("{}: the solver failed: {said}", list.name));
    Some(solved).filter(|solved| solved.seconds <= cutoff.as_secs_f64())
}

/// The end, once it is shown to be the earliest. The solver's own clock leaves out its start, the processor's what other programs use.
fn read(said: &str, used: f64) -> Option<Solved> {
    let figure = |name: &str| said.lines().rev().find_map(|line| line.strip_prefix(name)).map(|rest| rest.trim_end_matches(';'));
    let is_earliest = said.contains("==========");
    let end = figure("end = ")?.parse().ok().filter(|_| is_earliest)?;
    let own: f64 = figure("%%%mzn-stat: solveTime=")?.parse().ok()?;
    Some(Solved { end, seconds: own.min(used) })
}

#[test]
fn what_the_solver_says() {
    let said = "end = 30;\n----------\nend = 25;\n----------\n==========\n%%%mzn-stat: solveTime=0.25\n";
    let solved = read(said, 0.5).unwrap();
    assert_eq!((solved.end, solved.seconds), (25, 0.25));
    assert!(read(&said.replace("=====", ""), 0.5).is_none());
}
