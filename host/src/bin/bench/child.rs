//! A call in a process of its own: nothing interrupts the library, so the process is killed at the cut-off.
use crate::{clock, process};
use depot_host::lists::{self, List};
use depot_host::plain_search::{run_with, Outcome, Rules, Tables};
use depot_host::{card_length, earliest_end, plan, size, Card, Refusal};
use std::process::Command;
use std::time::Duration;
use std::{env, hint, io};

/// The option by which the program calls itself: the side, the length of the working memory, and the list on standard input.
pub const OPTION: &str = "--child";

/// Short calls are made again, and the shortest time counts.
const SHORT: f64 = 0.02;
const TIMES: usize = 5;
/// More than all calls that are made again need.
const AGAIN: Duration = Duration::from_millis(150);

#[derive(Clone, Copy)]
pub enum Side {
    Library,
    /// The library's call for the end alone.
    End,
    /// The library's call for the least module count; the count stands where others have the end, 0 where none serves.
    Size {
        by: u16,
    },
    /// The same search in plain Rust.
    Plain,
    /// The same without rules.
    Bare,
}

/// How much processor time a call took, how many part-plans it visited (0: not counted), and the end of its plan.
#[derive(Clone, Copy)]
pub struct Took {
    pub seconds: f64,
    pub visited: u64,
    pub end: u16,
}

/// Makes the call in a child process; none at the cut-off.
pub fn call(side: Side, list: &List, memory: usize, cutoff: Duration) -> Option<Took> {
    let side = match side {
        Side::Library => "library",
        Side::End => "end",
        Side::Size { by } => &by.to_string(),
        Side::Plain => "plain",
        Side::Bare => "bare",
    };
    let program = env::current_exe().expect("the program has a path");
    let mut command = Command::new(program);
    command.args([OPTION, side, &memory.to_string()]);
    let said = process::output(&mut command, &list.text(), cutoff + AGAIN).expect("the program runs itself")?;
    let took = Took::read(&said).unwrap_or_else(|| panic!("{}: the child failed", list.name));
    Some(took).filter(|took| took.seconds <= cutoff.as_secs_f64())
}

impl Took {
    fn text(&self) -> String {
        format!("{:.9} {} {}", self.seconds, self.visited, self.end)
    }

    fn read(text: &str) -> Option<Took> {
        let mut words = text.split_whitespace();
        let seconds = words.next()?.parse().ok()?;
        Some(Took { seconds, visited: words.next()?.parse().ok()?, end: words.next()?.parse().ok()? })
    }
}

/// The child: makes the call and writes what it took.
pub fn answer(words: &[String]) {
    let [side, memory] = words else { panic!("{OPTION} takes a side and a length") };
    let mut work = vec![0xA5; memory.parse().expect("a length")];
    let text = io::read_to_string(io::stdin()).expect("a list");
    let list = lists::read(&text).expect("a list").remove(0);
    let took = match side.as_str() {
        "plain" => plain(&list, &mut work, &Rules::default()),
        "bare" => plain(&list, &mut work, &Rules::bare()),
        "end" => end(&list, &mut work),
        by if by.starts_with(|c: char| c.is_ascii_digit()) => sized(&list, by.parse().expect("a minute"), &mut work),
        _ => library(&list, &mut work),
    };
    println!("{}", took.text());
}

fn library(list: &List, work: &mut [u8]) -> Took {
    let sheet = list.sheet();
    let mut card = vec![0; card_length(list.jobs.len())];
    let seconds = shortest(|| plan(&sheet, &mut card, work).unwrap_or_else(|refusal| panic!("{}: {refusal}", list.name)));
    let end = Card::of(&card).expect("a card").end;
    Took { seconds, visited: 0, end }
}

fn end(list: &List, work: &mut [u8]) -> Took {
    let sheet = list.sheet();
    let mut end = 0;
    let seconds = shortest(|| end = earliest_end(&sheet, work).unwrap_or_else(|refusal| panic!("{}: {refusal}", list.name)));
    Took { seconds, visited: 0, end }
}

fn sized(list: &List, by: u16, work: &mut [u8]) -> Took {
    let sheet = list.sheet();
    let mut card = vec![0; card_length(list.jobs.len())];
    let mut answer = Ok(0);
    let seconds = shortest(|| answer = size(&sheet, by, &mut card, work));
    assert!(matches!(answer, Ok(_) | Err(Refusal::NoCountServes)), "{}", list.name);
    Took { seconds, visited: 0, end: answer.unwrap_or(0) }
}

fn plain(list: &List, work: &mut [u8], rules: &Rules) -> Took {
    let tables = Tables::of(list);
    let mut outcome = Outcome::NoOrder;
    let seconds = shortest(|| outcome = run_with(&tables, work, rules));
    let Outcome::Found(found) = outcome else { panic!("{}: no order", list.name) };
    Took { seconds, visited: found.visited, end: found.end }
}

fn shortest(mut call: impl FnMut()) -> f64 {
    let mut least = f64::INFINITY;
    for _ in 0..TIMES {
        let start = clock::now();
        hint::black_box(&mut call)();
        least = least.min(clock::now() - start);
        if least > SHORT {
            break;
        }
    }
    least
}
