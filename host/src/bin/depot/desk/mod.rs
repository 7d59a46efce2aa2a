//! `depot desk`: a share desk on the command line, from the keyboard or from a script.
mod bars;
pub mod command;
mod kept;
mod keys;
mod line;
mod log;
mod picture;
mod reasons;
mod session;
#[cfg(target_os = "linux")]
mod terminal;

use crate::arguments::{Arguments, Takes};
use crate::coding::text_of;
use crate::files::Files;
use crate::outcome::{bytes_of, say, visible, Outcome, Trouble};
use crate::{help, json};
use depot_host::{Desk, Refusal};
use log::Log;
use picture::Step;
use session::{Answer, Session};
use std::io::{self, BufRead, IsTerminal};
use std::path::Path;

pub use command::{controller as named_controller, Command, Place};
pub use reasons::of_opening as why_not_opened;

const TAKES: Takes = Takes { verb: "desk", flags: &["--json"], values: &["--svg"], plain: &["a script"], needed: 0, more: false };

const WELCOME: &str = "\
A share desk. 'open 500 yard=240/420 workshop=100/200' opens one for two controllers on a feeder of 500 kW; 'help' names the commands.
";

/// How the lines went, where they are logged, and what a picture shows of them.
#[derive(Default)]
struct Lines {
    refused: usize,
    wrong: usize,
    log: Option<Log>,
    steps: Vec<Step>,
    /// Whether answers are said: not where the picture is standard output.
    silent: bool,
}

pub fn run(words: &[String]) -> Result<Outcome, Trouble> {
    let arguments = Arguments::read(&TAKES, words)?;
    let as_json = arguments.has("--json");
    let files = Files::of(&arguments, &["--svg"])?;
    let mut session = Session::default();
    let mut lines = Lines { silent: files.takes_output(), ..Lines::default() };
    if let Some(file) = arguments.plain(0) {
        from_script(&mut session, &mut lines, as_json, file)?;
        files.write("--svg", || picture::file(&name_of(file), &lines.steps).into())?;
        return lines.outcome();
    }
    let is_person = io::stdin().is_terminal();
    from_input(&mut session, &mut lines, as_json, is_person && io::stdout().is_terminal())?;
    files.write("--svg", || picture::file("share desk", &lines.steps).into())?;
    // who types sees every answer; a status is for scripts
    if is_person {
        return Ok(Outcome::Answered);
    }
    lines.outcome()
}

/// A file's name without its folder and its kind.
fn name_of(file: &str) -> String {
    Path::new(file).file_stem().map_or(file.into(), |stem| stem.to_string_lossy().into_owned())
}

/// Takes the lines of a script, each shown before its answer.
fn from_script(session: &mut Session, lines: &mut Lines, as_json: bool, file: &str) -> Result<(), Trouble> {
    for (place, line) in text_of(&bytes_of(file)?).lines().enumerate() {
        if !as_json && !line.trim().is_empty() {
            lines.say(&format!("> {}\n", visible(line)))?;
        }
        if !lines.take(session, line, as_json, &format!("{file}, line {}: ", place + 1))? {
            return Ok(());
        }
    }
    Ok(())
}

const PROMPT: &str = "desk> ";

/// Takes the lines of standard input; on a terminal with a prompt, and edited as they are typed where it can move its cursor.
fn from_input(session: &mut Session, lines: &mut Lines, as_json: bool, terminal: bool) -> Result<(), Trouble> {
    let prompt = || if terminal { say(PROMPT).map(|_| ()) } else { Ok(()) };
    if terminal {
        say(WELCOME)?;
        #[cfg(target_os = "linux")]
        if let Some(terminal) = terminal::Terminal::open() {
            return from_keys(session, lines, as_json, terminal);
        }
    }
    prompt()?;
    for line in io::stdin().lock().split(b'\n') {
        let line = line.map_err(|why| Trouble::Input(format!("standard input: {why}")))?;
        if !lines.take(session, &text_of(&line), as_json, "")? {
            return Ok(());
        }
        prompt()?;
    }
    Ok(())
}

/// Takes the lines that are typed at a terminal.
#[cfg(target_os = "linux")]
fn from_keys(session: &mut Session, lines: &mut Lines, as_json: bool, mut terminal: terminal::Terminal) -> Result<(), Trouble> {
    while let Some(line) = terminal.line(PROMPT)? {
        if !lines.take(session, &line, as_json, "")? {
            break;
        }
    }
    Ok(())
}

/// The sums behind the answer to a claim or a hand-back, none where it was granted.
pub fn why_not_booked(desk: &Desk, names: &[String], controller: u32, power: u32, answer: Result<(), Refusal>) -> Vec<String> {
    answer.err().map_or(Vec::new(), |refusal| reasons::of_call(desk, names, controller, power, refusal))
}

/// The sums behind the answer to a change, none where it was granted.
pub fn why_not_changed(desk: &Desk, limit: u32, places: &[Place], answer: Result<(), Refusal>) -> Vec<String> {
    answer.err().map_or(Vec::new(), |refusal| reasons::of_change(desk, limit, places, refusal))
}

impl Lines {
    /// Takes a line; whether there is to be another.
    fn take(&mut self, session: &mut Session, line: &str, as_json: bool, place: &str) -> Result<bool, Trouble> {
        let line = line.trim();
        if line.is_empty() || line.starts_with('#') {
            return Ok(true);
        }
        let command = command::read(line, session.names());
        let shown = command.as_ref().ok().and_then(picture::shown);
        let answer = command.and_then(|command| session.call(command, line));
        let said = match answer {
            Ok(Answer::Quit) => return Ok(false),
            Ok(Answer::Help) => Ok((help::desk_commands().into(), json::object(&[("help", json::text(help::desk_commands()))]))),
            Ok(Answer::Log(file)) => Log::open(&file).map(|log| {
                self.log = Some(log);
                (format!("logs to {file}\n"), json::object(&[("call", json::text("log")), ("file", json::text(&file))]))
            }),
            Ok(Answer::Said { text, json, refused }) => {
                self.refused += usize::from(refused);
                if let (Some(claim), Some(desk)) = (shown, session.left()) {
                    self.steps.push(Step::of(line, &text, claim, (desk, session.names())));
                }
                Ok((text, json))
            }
            Err(why) => Err(why),
        };
        let logged = |log: &mut Log| log.note(&visible(line), said.as_ref().map_or_else(|why| why, |(text, _)| text));
        let unlogged = self.log.as_mut().map_or(Ok(()), logged);
        let (text, json) = said.unwrap_or_else(|why| {
            self.wrong += 1;
            (format!("{place}{why}\n"), json::object(&[("error", json::text(&why))]))
        });
        self.say(&if as_json { json + "\n" } else { text })?;
        unlogged.map(|()| true).map_err(Trouble::Input)
    }

    fn say(&self, text: &str) -> Result<(), Trouble> {
        if self.silent {
            return Ok(());
        }
        say(text).map(|_| ())
    }

    /// How a script ended, said where something was refused or is no command.
    fn outcome(&self) -> Result<Outcome, Trouble> {
        let counted = |count: usize, one: &str, more: &str| format!("{count} {}", if count == 1 { one } else { more });
        match self {
            Lines { wrong: 0, refused: 0, .. } => Ok(Outcome::Answered),
            Lines { wrong: 0, refused, .. } => {
                eprintln!("depot: {}; the exit status is 1", counted(*refused, "call was refused", "calls were refused"));
                Ok(Outcome::Refused)
            }
            Lines { wrong, .. } => {
                let lines = counted(*wrong, "line is no command", "lines are no command");
                Err(Trouble::Input(format!("{lines}; the exit status is 2")))
            }
        }
    }
}
