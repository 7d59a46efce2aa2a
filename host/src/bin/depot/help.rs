//! What `--help` prints: the one place of its words. The manual page and the shells' completions are made of them.
use crate::meant::perhaps;
use crate::outcome::{say, visible, Outcome, Trouble};
use crate::{completions, man_page};

pub const TOP: &str = "\
depot: plans the charging of buses on one cabinet, keeps the share desk of a feeder, and follows plans on it.
The plans, ends and grants come from the proved library; this tool reads lists and draws.

usage: depot VERB ..

  depot plan LIST.csv            the plan that ends first, as a table
  depot plan LIST.csv --svg OUT  and as a picture; --html OUT for a page, --wall OUT for a screen on the wall
  depot end LIST.csv             the earliest end alone, in a sentence
  depot size LIST.csv --by TIME  how many modules are enough, so that the last bus is full by then
  depot use LIST.csv ..          how much of the cabinet is used, of one list or of several
  depot slack LIST.csv           which bus may wait, which holds up a departure, and which waits are not needed
  depot sets LIST.csv            how large the search will be, without planning
  depot sheet LIST.csv -o FILE   a list to a job sheet, the bytes that a cabinet takes
  depot list FILE                a job sheet back to a list
  depot desk                     an interactive share desk: open, change, claim, back, look, show, undo, save
  depot run LIST.csv             the plan followed on a share desk, minute by minute, beside others
  depot explain N                what refusal N means and what to do
  depot VERB --help              the options of a verb, and the list's format
  depot --version                the versions of the command line and of the library

Every verb that takes a list takes a job sheet too: the bytes of a file tell which it is, whatever its name. - is standard input.

Exit status: 0 answered; 1 refused, or the list has faults; 2 wrong usage, or a file cannot be read or written.
";

pub const LIST_FORMAT: &str = "
A list is a text with a line for each job:

  cabinet,16                                      the modules in the cabinet, 1 to 64
  changeover,5                                    the minutes that a module rests between two jobs, 0 to 30; 0 where it is left out
  start,21:00                                     the plan's start as a time of day; may be left out
  label,modules,minutes,after,departure,arrival   the header; the columns may stand in any order
  B101,4,120,,05:30                               a job
  B102,2,90,B101 #3,510                           a job that waits for the job B101 and for job 3
  B103,4,60,,05:45,22:10                          a job whose bus is on the road until 22:10

  label      1 to 16 letters, digits, signs or spaces, neither first nor last a space; two jobs may bear one label
  modules    that the job needs, 1 to 255
  minutes    that it takes, 1 to 1440
  after      labels of jobs that must have ended first, or their numbers (#0 is the first job), with a space between them;
             a label with a space in it stands in double quotes: \"N 417 B\" B101; the column may be left out
  departure  a minute counted from the start, 0 to 2880; with a line 'start' also a time: 05:30 is the first from the start on,
             05:30+1 the one on the day after the start's; 05:30:00 and 24:00 are times too
  arrival    the minute before which the job does not start, 0 to 1440, or a time as for the departure; nothing is 0, and the column
             may be left out; a departure may lie before the arrival

Up to 20 jobs. Other columns are passed over, and named on standard error; so is a time of day that lies more than 16 hours after the start.
Fields are separated by commas, or all by semicolons or tabs; one with such a sign or a double quote in it stands in double quotes, with a
double quote written twice. Lines that begin with # and a space are remarks. The text is UTF-8, UTF-16 or Windows' own.
";

const END: &str = "\
usage: depot end LIST|SHEET [OPTION..]

Says when the last bus is full at the earliest: the end of the plan that 'depot plan' shows, and of no plan, whoever makes it, earlier.
It takes less time than the plan.

A search that lasts says on standard error how it stands. Ctrl-C takes the best end so far, as does the end of --within: it is marked as
not shown to be the earliest, with the minute before which no plan ends. The exit status is 0. A second Ctrl-C ends the program.

  --start HH:MM    the plan's start as a time of day, in place of the list's
  --raw            the minute alone, counted from the start
  --json           for programs
  --within SECS    the best end after so many seconds, 0.1 to 86400, where the search is not over by then; if it is, nothing is different
  --memory BYTES   working memory of the search, 0 to 16G, with K, M or G (16M); no length changes the answer
";

const SIZE: &str = "\
usage: depot size LIST|SHEET --by TIME [OPTION..]

Says how large a cabinet the list asks for: the least number of modules, up to 64, with which the last bus is full by TIME, and that no
plan on fewer modules, whoever makes it, ends by then. The list's own cabinet does not count; a bus may need more modules than it has.
Below stands the earliest end for the counts beside it.

A search that lasts says on standard error how long it has lasted. Only its end is an answer: Ctrl-C ends the program without one.

  --by TIME        a minute counted from the start, 0 to 65535, or a time of day where the start is known: 05:30 is the first from the
                   start on, 05:30+1 the one on the day after the start's
  --start HH:MM    the plan's start as a time of day, in place of the list's
  --raw            the number of modules alone
  --json           for programs
  --card OUT       the bytes of the plan card for that many modules too
  --memory BYTES   working memory of the search, 0 to 16G, with K, M or G (16M); no length changes the answer
";

const USE: &str = "\
usage: depot use LIST|SHEET .. [OPTION..]

Says how much of the cabinet the plan uses that 'depot plan' shows: the share of its module-minutes up to the plan's end in which jobs
charge; modules that rest do not. The per mille is rounded down, and the remainder makes it exact: a thousand times the occupied
module-minutes is the per mille times all of them plus the remainder. Of several lists a table, with a line a list and a total of their
module-minutes; a list that is refused does not count in it. It takes as long as 'depot end'.

A search that lasts says on standard error how it stands. Only its end is an answer: Ctrl-C ends the program without one.

  --start HH:MM    the plans' start as a time of day, in place of the lists'
  --raw            the per mille and the remainder alone, a line a list
  --json           for programs
  --memory BYTES   working memory of the search, 0 to 16G, with K, M or G (16M); no length changes the answer
";

const PLAN: &str = "\
usage: depot plan LIST|SHEET [OPTION..]

Shows the plan that ends first of all valid plans. Of plans that end alike the order of the jobs on the sheet decides, the tie rule. A list
is put on its sheet in the order of its departures. Where that leaves a bus late, it is asked whether some plan that ends alike has nobody
late; that one is shown then. If there is none, it is said when the first plan ends in which nobody is late. A job sheet is planned as
it is.

Table, page, picture and --json have the list's order and numbers; --raw, --card and --sheet those of the sheet that was planned.

A search that lasts says on standard error how long it has lasted, when the best plan so far ends, and when none ends before. Ctrl-C takes
the best plan so far, as does the end of --within: a valid plan, marked as not shown to be the earliest, with the minutes that can be
gained at most. It has no slack, and a cabinet that plans its sheet may come to another. The exit status is 0. With --on-time there is
nothing to take, and it is 1. A second Ctrl-C ends the program.

  --by-line        the list's jobs on the sheet in the order of its lines, as 'depot sheet' writes it
  --on-time        the first plan in which nobody is late, though it may end later; on its sheet a bus may be held back
  --start HH:MM    the plan's start as a time of day, in place of the list's; the list's times of day count from it
  --depot NAME     the depot's name, up to 60 characters: over table, work list, picture and pages, in --json and as a remark in --csv
  --date DATE      the date of the plan's start, as 2026-11-17, in the same places; past midnight the next date too
  --work           the night's work by the clock in place of the table: who is plugged in and unplugged when, and on which modules
  --raw            exactly the printing program's lines
  --json           for programs
  --svg OUT        a picture of the plan too
  --html OUT       a page with the picture, the table and the work by the clock too, for wide and narrow screens and for paper
  --wall OUT       a page for a screen on the wall too: who is on charge, who is next, what is to be done, and who is late, in large type;
                   it goes by the browser's clock, every night from the start's time of day on, and with --date in that night alone
  --now TIME       the wall's page as at this time, 22:45, without a script; a minute counted from the start where the list has none
  --csv OUT        the list with columns for start, end, modules, slack and lateness too, for a spreadsheet; it is a list again
  --sheet OUT      the job sheet that was planned too: a cabinet that plans it comes to this plan
  --card OUT       the plan card's bytes too, of that sheet; of these files one may be -, standard output, and is then all that goes there
  --within SECS    the best plan after so many seconds, 0.1 to 86400, where the search is not over by then; if it is, nothing is different
  --memory BYTES   working memory of the search, 0 to 16G, with K, M or G (16M); no length changes the answer
";

const SLACK: &str = "\
usage: depot slack LIST|SHEET [OPTION..]

Shows which bus may wait, and which holds up a departure, least slack first: its start in the plan that 'depot plan' shows, and the latest
start by which it and all buses that wait for it, directly or through others, would still be full by their departures if there were
modules enough. Below it stand the waits in the list that others imply, with the shorter cells of the column 'after': every bus then
waits for the same ones, and no further wait could go.

A search that lasts says on standard error how it stands. Slack needs the plan itself: Ctrl-C ends the program without an answer.
'depot plan' can show the best plan so far, without slack.

  --by-line        the plan of 'depot plan --by-line'
  --on-time        the plan of 'depot plan --on-time'
  --start HH:MM    the plan's start as a time of day, in place of the list's
  --raw            a line for each job in the list's order: start, latest start, slack, implied waits as a set of jobs, label
  --json           for programs
  --memory BYTES   working memory of the search, 0 to 16G, with K, M or G (16M); no length changes the answer
";

const SETS: &str = "\
usage: depot sets LIST|SHEET [OPTION]

Shows how many sets of jobs a part-plan can hold: those that have, with each job, all jobs that it waits for, the empty one and the full
one included. A chain of n jobs has n + 1, n jobs of which none waits for another 2 to the power n. Nothing is planned. Below it stands
how many of the benchmark's lists of that size were planned within half a second.

  --raw            the number alone
  --json           for programs
";

const SHEET: &str = "\
usage: depot sheet LIST|SHEET -o FILE [--start HH:MM]

Writes the job sheet of a list: the bytes that a cabinet takes. FILE may be - for standard output. The jobs keep the order of the lines, so
of plans that end alike the lines decide; 'depot plan' can write the sheet of the plan that it shows.

  --start HH:MM    the plan's start as a time of day, in place of the list's; the list's times of day count from it
";

const LIST: &str = "\
usage: depot list LIST|SHEET [--start HH:MM] [-o FILE] [--json]

Shows a job sheet as a list, which 'depot sheet' takes back; a list as it is written plainly.

  --start HH:MM    arrivals and departures as times of day, counted from this start
  -o FILE          to a file
  --json           for programs; 'after' has job numbers
";

/// What `help` shows in a desk.
const DESK: &str = "\
usage: depot desk [SCRIPT] [--svg OUT] [--json]

A share desk that takes a command from each line of standard input, or of a script file.

Commands:
  open LIMIT SHARE/CEILING ..   opens a desk for 2 to 8 controllers; NAME=SHARE/CEILING gives one a name
  open! ..                      the same where power is held, which is forgotten: nobody else is told
  change LIMIT SHARE/CEILING .. gives the desk new figures; what is held stays; NAME=SHARE/CEILING for the controller of that name
  claim CONTROLLER KW           claims power
  back CONTROLLER KW            hands power back
  look [CONTROLLER]             the largest claim that would be granted now
  show                          a bar for each controller
  undo                          takes back the last command that changed the desk; who acted on it must be told
  save FILE, load FILE          the desk's bytes and its names, to a file and back; load! where power is held
  log FILE                      adds every command from here on to a file, with its time and answer
  explain N                     what refusal N means
  help, quit

LIMIT, SHARE, CEILING and KW are kilowatts in whole hundreds of watts: 30, 12.5; or so many modules of a size: 3x30 is three of 30 kW.
A controller is named by its number, from 0, or by its name. Lines that begin with # are remarks.
At a keyboard the arrows, Home, End, Backspace and Delete edit a line, and up and down bring earlier ones back; Ctrl-C gives a line up, Ctrl-D
on an empty one ends the desk.

  --svg OUT        a picture of the calls: what each controller holds behind each, what stays reserved, and the limit
  --json           an object for each command, for programs; figures in kW too

Exit status of a script, from a file or a pipe: 0 every call was answered; 1 some call was refused; 2 some line is no command. Of a desk
at a keyboard it is 0: who types has seen every answer.
";

const RUN: &str = "\
usage: depot run LIST|SHEET [OPTION..]

Plans a list as 'depot plan' does and plays the night on a share desk, minute by minute: a runner makes the plan's hand-backs and claims,
and before each of its minutes the other controllers call. Shows every call with its answer, what is held over time, and whether every call
of the plan was granted: it is, whatever the others do, as long as the controller that follows the plan makes no other call and keeps the
share that the plan needs.

Without a script the desk is that of a yard, assured of what its plan needs, and a neighbour, on a feeder with half as much again. The
neighbour claims all that a look shows, every minute, and hands back at some minutes.

A search that lasts says on standard error how it stands. Ctrl-C takes the best plan so far, as does the end of --within, and the night is
played with it: every call of a valid plan is granted too. It is marked as not shown to be the earliest. A second Ctrl-C ends the program.

  --size KW          the size of a module, up to 1000 kW in whole hundreds of watts (30)
  --limit KW         the feeder's limit, in place of that
  --seed N           other minutes at which the neighbour hands back (1)
  --script FILE      other controllers' calls: a line each, with a minute, or a time of day where the start is known, before it:
                       open 500 yard=8x30/420 workshop=2x50/200   the desk, in place of the usual one; first, and without a minute
                       15 claim workshop 50                       also back and change; 'depot desk --help' says how they are written
                       23:10 back workshop 50
                     a line's call comes before the plan's calls of its minute
  --controller NAME  the controller that follows the plan, by name or number (the first)
  --by-line          the plan of 'depot plan --by-line'
  --on-time          the plan of 'depot plan --on-time'
  --start HH:MM      the plan's start as a time of day, in place of the list's
  --depot NAME       the depot's name, over text, picture and page, and in --json
  --date DATE        the date of the plan's start, as 2026-11-17, in the same places
  --json             for programs
  --svg OUT          a picture of the night too
  --html OUT         a page with the night's picture, the plan's and the calls too; one of the two may be -, standard output, and is
                     then all that goes there
  --within SECS      the night of the best plan after so many seconds, 0.1 to 86400, where the search is not over by then
  --memory BYTES     working memory of the search, 0 to 16G, with K, M or G (16M); no length changes the answer

Exit status: 0 every call of the plan was granted; 1 the start or a call of the plan was refused, or the list has faults; 2 wrong usage, or
some line of the script is no call.
";

const EXPLAIN: &str = "\
usage: depot explain [N] [--json]

What refusal N, 1 to 26, means, which calls refuse with it, and what to do. Without N, all of them in a line each.
";

/// Each verb with its help, and what is shown behind it.
pub const VERBS: [(&str, &str, &str); 11] = [
    ("plan", PLAN, LIST_FORMAT),
    ("end", END, ""),
    ("size", SIZE, ""),
    ("use", USE, ""),
    ("slack", SLACK, ""),
    ("sets", SETS, LIST_FORMAT),
    ("sheet", SHEET, LIST_FORMAT),
    ("list", LIST, ""),
    ("desk", DESK, ""),
    ("run", RUN, ""),
    ("explain", EXPLAIN, ""),
];

/// The verb that shows the help of the others, and the options that ask for it.
pub const VERB: &str = "help";
pub const ASKS: [&str; 2] = ["--help", "-h"];

/// Whether help is asked for among these words.
pub fn asked_for(words: &[String]) -> bool {
    words.iter().any(|word| ASKS.contains(&word.as_str()))
}

/// The part of the desk's help that names its commands.
pub fn desk_commands() -> &'static str {
    let from = DESK.find("Commands:").expect("the desk's commands");
    let to = DESK.find("\n  --svg").expect("the desk's options");
    &DESK[from..to]
}

/// The help of a verb; with the list's format where it takes a list.
pub fn of_verb(verb: &str) -> Option<String> {
    if verb == VERB {
        return Some(TOP.into());
    }
    let (_, text, behind) = VERBS.iter().find(|(name, ..)| *name == verb)?;
    Some(format!("{text}{behind}"))
}

/// What is said of a word that is no verb.
pub fn no_verb(word: &str) -> Trouble {
    let verbs = VERBS.map(|(name, ..)| name);
    Trouble::usage(format!("there is no verb '{}'{}", visible(word), perhaps(word, &verbs)), "")
}

/// `depot help [VERB]`; for whoever installs it also `depot help --man` and `depot help --complete SHELL`
pub fn run(words: &[String]) -> Result<Outcome, Trouble> {
    let verb = words.first().map_or(VERB, String::as_str);
    match verb {
        "--man" => return say(&man_page::text()),
        "--complete" => return completions::run(&words[1..]),
        _ => {}
    }
    match of_verb(verb) {
        Some(text) => say(&text),
        None => Err(no_verb(verb)),
    }
}
