//! Searches that are not waited for: `--within`, Ctrl-C, and what is said meanwhile.
#![cfg(target_os = "linux")]
mod command;

use command::{depot, file, top, Run};
use depot_host::{earliest_end, families, read, Card, Desk, Runner};
use std::ffi::{c_char, c_int, c_ulong, CStr};
use std::fs::{File, OpenOptions};
use std::io::{BufRead, BufReader, Read};
use std::os::fd::FromRawFd;
use std::os::unix::process::CommandExt;
use std::process::{Child, Command, Stdio};
use std::sync::mpsc::{self, Receiver};
use std::sync::{Mutex, MutexGuard, PoisonError};
use std::thread;
use std::time::{Duration, Instant};
use std::{fs, io};

extern "C" {
    fn kill(process: c_int, signal: c_int) -> c_int;
    fn signal(number: c_int, what: usize) -> usize;
    fn posix_openpt(flags: c_int) -> c_int;
    fn grantpt(file: c_int) -> c_int;
    fn unlockpt(file: c_int) -> c_int;
    fn ptsname_r(file: c_int, name: *mut c_char, length: usize) -> c_int;
    fn ioctl(file: c_int, request: c_ulong, ...) -> c_int;
}

const INTERRUPT: c_int = 2;
const ENDS: usize = 0;
const IGNORED: usize = 1;
const READ_AND_WRITE: c_int = 2;
const NO_CONTROL: c_int = 0o400;
const SET_SIZE: c_ulong = 0x5414;

/// How long something that is to be said may take on a slow machine.
const PATIENCE: Duration = Duration::from_secs(300);

const MARK: &str = "NOT SHOWN TO BE THE EARLIEST: after ";
/// What is said of a plan that ends first, and of slack.
const OF_THE_EARLIEST: [&str; 4] = ["ends earlier", "end alike", "slack", "Slack"];

/// One search at a time: each takes two threads or three.
fn alone() -> MutexGuard<'static, ()> {
    static ONE: Mutex<()> = Mutex::new(());
    ONE.lock().unwrap_or_else(PoisonError::into_inner)
}

/// A yard's 20 buses, whose search goes on for minutes.
fn hard_sheet() -> Vec<u8> {
    let family = families::yard().into_iter().find(|family| family.name() == "yard0_N32").expect("the family");
    family.list(1, 20).sheet()
}

/// The same as a list that starts at 20:00.
fn hard_list() -> String {
    let list = depot(&["list", "-", "--start", "20:00"], &hard_sheet());
    assert_eq!(list.status, 0, "{}", list.errors);
    file("hard.csv", &list.output)
}

/// The figure behind a name in a line of JSON.
fn figure(json: &str, name: &str) -> u16 {
    let rest = json.split(&format!("\"{name}\": ")).nth(1).unwrap_or_else(|| panic!("{name} in {json}"));
    rest.split([',', '}']).next().and_then(|word| word.parse().ok()).unwrap_or_else(|| panic!("{name} in {json}"))
}

/// Holds a card to its sheet: a runner starts valid plans alone.
fn is_valid(sheet: &[u8], card: &[u8]) -> bool {
    let own = read(sheet).expect("a sheet").modules.into();
    let desk = Desk::open(own, &[own, 0], &[own, 1]).expect("a desk");
    Runner::start(sheet, card, &desk, 0, 1).is_ok()
}

#[test]
fn a_search_that_is_over_in_time_is_as_without() {
    let _alone = alone();
    for name in ["small-depot", "mixed-night", "hard-night", "on-the-road", "contactors"] {
        let list = format!("examples/{name}.csv");
        for form in ["--by-line", "--json", "--raw", "--work", "--on-time"] {
            let [with, without] =
                [&["--within", "600"][..], &[]].map(|more| depot(&[&["plan", &list, form], more].concat(), b""));
            assert_eq!((with.status, &with.output), (without.status, &without.output), "{name} {form}");
            assert!(!with.errors.contains("NOT SHOWN") && !with.errors.contains("stopped"), "{}", with.errors);
        }
        for form in ["--raw", "--json"] {
            let [with, without] = [&["--within=600.5"][..], &[]].map(|more| depot(&[&["end", &list, form], more].concat(), b""));
            assert_eq!((with.status, &with.output), (0, &without.output), "{name} {form}");
        }
    }
}

#[test]
fn the_best_plan_after_so_long() {
    let _alone = alone();
    let list = hard_list();
    let outs = ["svg", "html", "wall", "csv", "sheet", "card"].map(|name| (format!("--{name}"), file(name, b"")));
    let files: Vec<&str> = outs.iter().flat_map(|(option, out)| [option.as_str(), out]).collect();
    let ran = depot(&[&["plan", &list, "--json", "--within", "0.5"], &files[..]].concat(), b"");
    assert_eq!(ran.status, 0, "{}", ran.errors);
    let json = ran.text();
    let (end, bound) = (figure(&json, "end"), figure(&json, "bound"));
    assert!(json.contains("\"exact\": false") && json.contains("\"bound_time\": \"03:") && bound < end, "{json}");
    assert!(!json.contains("slack") && !json.contains("on_time"));
    assert!(ran.errors.contains(MARK) && ran.errors.contains("a cabinet that plans this sheet may come to another plan"));
    let [svg, html, wall, csv, sheet, card] = outs.map(|(_, out)| fs::read(out).expect("a file"));
    let card_s = Card::of(&card).expect("a card");
    assert!(card_s.end == end && is_valid(&sheet, &card));
    let gap =
        format!("0.5 s of searching the best plan ends at 03:{:02}+1; no plan ends before 03:{:02}+1", end - 420, bound - 420);
    for (kind, text, mark) in [
        ("svg", svg, "not shown to be the earliest, none ends before 03:"),
        ("html", html, &gap),
        ("wall", wall, "not shown to be the earliest, none ends before 03:"),
        ("csv", csv.clone(), &gap),
    ] {
        let text = String::from_utf8(text).expect("text");
        assert!(text.contains(mark), "{kind}: {text}");
        assert!(!OF_THE_EARLIEST.iter().any(|words| text.contains(words)), "{kind}: {text}");
    }
    let again = depot(&["sheet", "-", "-o", "-"], &csv);
    assert_eq!(again.output, depot(&["sheet", &list, "-o", "-"], b"").output, "{}", again.errors);
}

#[test]
fn it_is_marked_in_every_form() {
    let _alone = alone();
    let list = hard_list();
    for form in [&[][..], &["--work"], &["--by-line"]] {
        let ran = depot(&[&["plan", &list, "--within", "0.5"], form].concat(), b"");
        assert_eq!(ran.status, 0, "{}", ran.errors);
        let text = ran.text();
        assert!(text.starts_with(MARK) && text.lines().next().unwrap().ends_with(" can be gained."), "{text}");
        assert!(!OF_THE_EARLIEST.iter().any(|words| text.contains(words)), "{text}");
        assert!(form == ["--work"] || text.contains("The plan is valid. No valid plan of this sheet ends before 03:"), "{text}");
        assert!(form == ["--work"] || text.contains("It is not settled whether fewer buses need be late."), "{text}");
    }
    let raw = depot(&["plan", "-", "--raw", "--within", "0.5"], &hard_sheet());
    assert!(raw.status == 0 && raw.text().starts_with("plan ") && raw.text().lines().count() == 21);
    assert!(raw.errors.lines().last().is_some_and(|line| line.starts_with(&format!("-: {MARK}"))), "{}", raw.errors);
    let page = depot(&["plan", &list, "--html", "-", "--within", "0.5"], b"");
    assert!(page.text().starts_with("<!DOCTYPE html>") && page.errors.contains(MARK));
}

#[test]
fn the_best_end_after_so_long() {
    let _alone = alone();
    let list = hard_list();
    let words = depot(&["end", &list, "--within", "0.5"], b"").text();
    assert!(words.starts_with(MARK) && words.ends_with(" can be gained.\n") && words.contains("(minute 4"), "{words}");
    let json = depot(&["end", &list, "--within", "0.5", "--json"], b"").text();
    assert!(json.contains("\"exact\": false") && figure(&json, "bound") < figure(&json, "end"), "{json}");
    let raw = depot(&["end", &list, "--within", "0.5", "--raw"], b"");
    assert!(raw.text().trim().parse::<u16>().is_ok() && raw.errors.contains(MARK));
}

#[test]
fn the_night_of_the_best_plan_after_so_long() {
    let _alone = alone();
    let list = hard_list();
    let outs = ["svg", "html"].map(|name| (format!("--{name}"), file(name, b"")));
    let files: Vec<&str> = outs.iter().flat_map(|(option, out)| [option.as_str(), out]).collect();
    let ran = depot(&[&["run", &list, "--json", "--within", "0.5"], &files[..]].concat(), b"");
    assert_eq!(ran.status, 0, "{}", ran.errors);
    let json = ran.text();
    assert!(json.contains("\"every_call_of_the_plan_granted\": true"), "{json}");
    assert!(json.contains("\"exact\": false, \"bound\": 4") && ran.errors.contains(MARK), "{json}");
    let [svg, html] = outs.map(|(_, out)| fs::read_to_string(out).expect("a file"));
    assert!(svg.contains(": the night on the feeder; plan not shown to be the earliest, none ends before 03:"), "{svg}");
    assert!(html.contains(&format!("<p><strong>{MARK}0.5 s of searching")), "{html}");
    let words = depot(&["run", &list, "--within", "0.5"], b"").text();
    assert!(words.starts_with(MARK) && words.contains("\nEvery call of the plan was granted: 20 claims and 20 hand-backs.\n"));
}

#[test]
fn nobody_late_is_not_found_in_time() {
    let _alone = alone();
    let ran = depot(&["plan", &hard_list(), "--within", "0.5", "--on-time"], b"");
    assert_eq!((ran.status, ran.output.len()), (1, 0));
    assert!(ran.errors.trim_end().ends_with("no plan in which nobody is late was found in 0.5 s of searching"), "{}", ran.errors);
}

/// What a program says, as it comes.
struct Saying {
    pieces: Receiver<Vec<u8>>,
    said: String,
}

impl Saying {
    fn from(mut source: impl Read + Send + 'static) -> Saying {
        let (send, pieces) = mpsc::channel();
        thread::spawn(move || {
            let mut piece = [0; 4096];
            // at the end of a terminal the other side is gone, which is an error here
            while let Ok(length @ 1..) = source.read(&mut piece) {
                send.send(piece[..length].to_vec()).ok();
            }
        });
        Saying { pieces, said: String::new() }
    }

    /// Waits until what was said is as it is asked for.
    fn until(&mut self, is_said: impl Fn(&str) -> bool) {
        let from = Instant::now();
        while !is_said(&self.said) {
            let piece = self.pieces.recv_timeout(PATIENCE.saturating_sub(from.elapsed()));
            let piece = piece.unwrap_or_else(|why| panic!("{why}: {}", self.said));
            self.said += &String::from_utf8(piece).expect("text");
        }
    }

    /// All that was said, to its end.
    fn to_the_end(mut self) -> String {
        let rest: Vec<u8> = self.pieces.iter().flatten().collect();
        self.said += &String::from_utf8(rest).expect("text");
        self.said
    }
}

/// Whether a line says how a search stands: some words, how long it has taken, and some words behind it.
fn stands(line: &str, before: &str, behind: &str) -> bool {
    line.strip_prefix(before).is_some_and(|rest| {
        let long = rest.trim_start_matches(|c| "0123456789 min".contains(c));
        long.len() < rest.len() && long.starts_with(behind)
    })
}

/// What a search says up to a line about the best so far, and behind it, when it is interrupted there.
fn said_of_the_best(words: &[&str]) -> (Child, String) {
    let mut child = started(words, ENDS);
    let mut saying = Saying::from(child.stderr.take().expect("a piped stderr"));
    saying.until(|said| said.lines().any(|line| line.contains("; best so far ") && line.ends_with(')')));
    interrupt(&child);
    let said = saying.to_the_end();
    (child, said)
}

#[test]
fn what_is_said_meanwhile() {
    let _alone = alone();
    let list = hard_list();
    for (words, hint) in
        [(["plan", &list], "takes it"), (["run", &list], "takes it"), (["slack", &list], "ends it without an answer")]
    {
        let (mut child, said) = said_of_the_best(&words);
        let code = child.wait().expect("it ends").code();
        assert_eq!(code, (hint == "takes it").then_some(0), "{said}");
        assert!(said.starts_with("a long search: 1,048,576 sets"), "{said}");
        let standing = said.lines().find(|line| stands(line, "searching for the earliest end: ", "s; best so far 03:"));
        let standing = standing.unwrap_or_else(|| panic!("{said}"));
        assert!(standing.contains("+1, no plan ends before 03:"), "{standing}");
        assert!(standing.ends_with(&format!(" to gain (Ctrl-C {hint})")), "{standing}");
    }
}

/// What a search shows on a terminal of so many columns until a line begins so, and when it is interrupted then.
fn on_a_terminal(columns: u16, list: &str, before: &str, behind: &str) -> String {
    let mut name: [c_char; 64] = [0; 64];
    let size = [40, columns, 0, 0];
    // SAFETY: the file is this one's own; the name and the size are lent for the calls.
    let (screen, name) = unsafe {
        let file = posix_openpt(READ_AND_WRITE | NO_CONTROL);
        assert!(file >= 0 && grantpt(file) == 0 && unlockpt(file) == 0 && ptsname_r(file, name.as_mut_ptr(), name.len()) == 0);
        assert_eq!(ioctl(file, SET_SIZE, &size), 0);
        (File::from_raw_fd(file), CStr::from_ptr(name.as_ptr()).to_str().unwrap().to_string())
    };
    let terminal = OpenOptions::new().read(true).write(true).open(name).expect("the terminal opens");
    let mut command = Command::new(env!("CARGO_BIN_EXE_depot"));
    command.args(["plan", list]).stdin(Stdio::null()).stdout(Stdio::null()).stderr(Stdio::from(terminal));
    let mut child = command.spawn().expect("the program starts");
    drop(command);
    let mut saying = Saying::from(screen);
    saying.until(|said| said.split(CLEARED).any(|line| stands(line, before, behind)));
    interrupt(&child);
    let shown = saying.to_the_end();
    assert_eq!(child.wait().expect("it ends").code(), Some(0));
    shown
}

/// What takes a terminal's line away.
const CLEARED: &str = "\r\x1b[K";

/// On a terminal one line is written over: it is never wider than that.
#[test]
fn what_a_terminal_shows_meanwhile() {
    let _alone = alone();
    let list = hard_list();
    for (columns, before, behind) in
        [(200, "searching for the earliest end: ", "s; best so far 03:"), (80, "", "s: best 03:"), (30, "", "s: best 03:")]
    {
        let shown = on_a_terminal(columns, &list, before, behind);
        let lines: Vec<&str> = shown.split(CLEARED).filter(|line| !line.contains('\n')).collect();
        assert!(lines.iter().all(|line| line.chars().count() < columns.into()), "{shown}");
        assert!(columns < 80 || lines.iter().any(|line| line.ends_with("(Ctrl-C takes it)")), "{shown}");
        assert!(shown.ends_with(CLEARED), "{shown}");
    }
}

#[test]
fn wrong_times() {
    let _alone = alone();
    for word in ["0", "0.05", "86401", "-5", "ten", "1e2", "", "5s", "1,5"] {
        for verb in ["plan", "end", "run"] {
            let ran = depot(&[verb, "examples/small-depot.csv", "--within", word], b"");
            assert_eq!((ran.status, ran.output.len()), (2, 0), "{word}");
            assert!(
                ran.errors.contains(&format!("--within: found '{word}'; allowed is seconds, 0.1 to 86400")),
                "{}",
                ran.errors
            );
        }
    }
    for words in [&["size", "--by", "300"][..], &["use"], &["slack"]] {
        let ran = depot(&[words, &["examples/small-depot.csv", "--within", "1"]].concat(), b"");
        assert_eq!((ran.status, ran.output.len()), (2, 0), "{words:?}");
        assert!(ran.errors.contains("there is no option '--within'"), "{}", ran.errors);
        let help = depot(&[words[0], "--help"], b"").text();
        assert!(help.contains("Ctrl-C ends the program without"), "{help}");
    }
}

#[test]
fn a_refusal_is_told_within_any_time() {
    let _alone = alone();
    let wide = file("wide.csv", b"cabinet,2\nlabel,modules,minutes,after,departure\nA,3,5,,9\n");
    let [with, without] = [&["--within", "0.1"][..], &[]].map(|more| depot(&[&["plan", &wide], more].concat(), b""));
    assert_eq!(with, without);
    assert_eq!(with.status, 1);
}

/// A search that lasts, which does this on Ctrl-C when it starts.
fn started(words: &[&str], on_ctrl_c: usize) -> Child {
    let mut command = Command::new(env!("CARGO_BIN_EXE_depot"));
    command.args(words).current_dir(top()).stdin(Stdio::null()).stdout(Stdio::piped()).stderr(Stdio::piped());
    let set = move || {
        // SAFETY: no memory is lent, and the call may be made between fork and exec.
        unsafe { signal(INTERRUPT, on_ctrl_c) };
        io::Result::Ok(())
    };
    // SAFETY: as above.
    unsafe { command.pre_exec(set) };
    command.spawn().expect("the program starts")
}

fn interrupt(child: &Child) {
    // SAFETY: no memory is lent; the process is a child that has not been waited for.
    assert_eq!(unsafe { kill(child.id() as c_int, INTERRUPT) }, 0);
}

/// Reads what it says up to its second line, interrupts it, and reads on to its end.
fn interrupted(words: &[&str]) -> Run {
    let mut child = started(words, ENDS);
    let mut said = BufReader::new(child.stderr.take().expect("a piped stderr"));
    let mut errors = String::new();
    for _ in 0..2 {
        said.read_line(&mut errors).expect("a line");
    }
    interrupt(&child);
    said.read_to_string(&mut errors).expect("text");
    let output = child.wait_with_output().expect("it ends");
    Run { status: output.status.code().expect("an exit status"), output: output.stdout, errors }
}

#[test]
fn ctrl_c_takes_the_best_plan_so_far() {
    let _alone = alone();
    let list = hard_list();
    let ran = interrupted(&["plan", &list]);
    assert_eq!(ran.status, 0, "{}", ran.errors);
    assert!(ran.text().starts_with(MARK), "{}", ran.text());
    assert!(ran.errors.contains("(Ctrl-C takes "), "{}", ran.errors);
    let ran = interrupted(&["end", &list, "--json"]);
    assert!(ran.status == 0 && ran.text().contains("\"exact\": false"), "{}", ran.errors);
    let ran = interrupted(&["plan", &list, "--on-time"]);
    assert!(ran.status == 1 && ran.errors.contains("no plan in which nobody is late was found in "), "{}", ran.errors);
}

#[test]
fn ctrl_c_ends_other_verbs_and_is_ignored_where_it_was() {
    let _alone = alone();
    let list = hard_list();
    for words in [&["slack", &list][..], &["use", &list], &["size", &list, "--by", "04:00"]] {
        let mut child = started(words, ENDS);
        let mut saying = Saying::from(child.stderr.take().expect("a piped stderr"));
        saying.until(|said| said.contains("(Ctrl-C ends it without an answer)\n"));
        interrupt(&child);
        assert_eq!(child.wait().expect("it ends").code(), None, "it is ended by the signal");
    }
    let mut plan = started(&["plan", &list], IGNORED);
    let mut saying = Saying::from(plan.stderr.take().expect("a piped stderr"));
    saying.until(|said| said.contains("searching for "));
    interrupt(&plan);
    thread::sleep(Duration::from_millis(500));
    assert!(plan.try_wait().expect("it can be asked").is_none(), "it searches on");
    plan.kill().expect("it still searches");
    plan.wait().expect("it ends");
}

/// The best end and the bound lie around the earliest end, on lists whose search is over soon.
#[test]
fn the_earliest_end_lies_between() {
    let _alone = alone();
    let mut stopped = 0;
    for family in families::yard().iter().filter(|family| family.name().starts_with("yard2")) {
        let sheet = family.list(1, 20).sheet();
        let earliest = earliest_end(&sheet, &mut vec![0; 1 << 24]).expect("a list that has a plan");
        let json = depot(&["plan", "-", "--json", "--within", "0.1"], &sheet).text();
        if json.contains("\"exact\": false") {
            stopped += 1;
            assert!(figure(&json, "bound") <= earliest && earliest <= figure(&json, "end"), "{json}");
        } else {
            assert_eq!(figure(&json, "end"), earliest);
        }
    }
    println!("{stopped} were stopped");
}
