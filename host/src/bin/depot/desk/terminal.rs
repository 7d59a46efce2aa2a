//! A terminal at which lines are typed: their keys come one by one and are shown here. At the end it is as it was found.
use super::keys;
use super::line::{Line, Typed};
use crate::outcome::{say, Trouble};
use crate::width::{columns, OUTPUT};
use std::env;
use std::ffi::c_int;
use std::io::{self, BufRead};

/// `struct termios` of Linux.
#[repr(C)]
#[derive(Clone, Copy)]
struct Settings {
    input: u32,
    output: u32,
    control: u32,
    local: u32,
    discipline: u8,
    signs: [u8; 32],
    speeds: [u32; 2],
}

extern "C" {
    fn tcgetattr(file: c_int, settings: *mut Settings) -> c_int;
    fn tcsetattr(file: c_int, when: c_int, settings: *const Settings) -> c_int;
    fn raise(signal: c_int) -> c_int;
}

const INPUT: c_int = 0;
/// Settings count from what is written or read next.
const NOW: c_int = 0;
/// Ctrl-C and Ctrl-Z are signals; lines come whole; keys are shown; further keys have a meaning.
const BY_THE_TERMINAL: u32 = 0o1 | 0o2 | 0o10 | 0o100000;
/// The places of the fewest bytes that are read, and of the time that is waited for more.
const FEWEST: usize = 6;
const WAITED: usize = 5;
const STOP: c_int = 20;

/// What is said where Ctrl-C finds an empty line.
const HOW_TO_END: &str = "'quit' or Ctrl-D ends the desk, and it is kept nowhere else; 'save FILE' keeps it\n";

pub struct Terminal {
    found: Settings,
    line: Line,
    /// Bytes of keys that were typed ahead.
    ahead: Vec<u8>,
}

impl Terminal {
    /// The terminal of standard input and output; none where it cannot move its cursor.
    pub fn open() -> Option<Terminal> {
        env::var("TERM").ok().filter(|kind| !kind.is_empty() && kind != "dumb")?;
        let mut found = Settings { input: 0, output: 0, control: 0, local: 0, discipline: 0, signs: [0; 32], speeds: [0; 2] };
        // SAFETY: the settings are lent for the call.
        let answer = unsafe { tcgetattr(INPUT, &mut found) };
        let terminal = (answer == 0).then(|| Terminal { found, line: Line::default(), ahead: Vec::new() })?;
        terminal.take();
        Some(terminal)
    }

    /// The next line that is typed; none behind the last.
    pub fn line(&mut self, prompt: &str) -> Result<Option<String>, Trouble> {
        let show = |line: &Line, before: &str| say(&format!("{before}{}", line.shown(prompt, columns(OUTPUT))));
        show(&self.line, "")?;
        loop {
            let Some((key, length)) = keys::first(&self.ahead) else {
                if !self.read_on()? {
                    return Ok(None);
                }
                continue;
            };
            self.ahead.drain(..length);
            match self.line.take(key) {
                // keys that came at once are shown at once
                Typed::Shown if keys::first(&self.ahead).is_some() => {}
                Typed::Shown => drop(show(&self.line, "")?),
                Typed::Cleared => drop(show(&self.line, "\x1b[H\x1b[2J")?),
                Typed::Done(line) => {
                    self.line_is(&line, prompt)?;
                    return Ok(Some(line));
                }
                Typed::GivenUp(had_signs) => {
                    say("^C\n")?;
                    if !had_signs {
                        say(HOW_TO_END)?;
                    }
                    show(&self.line, "")?;
                }
                Typed::Suspended => {
                    say("\n")?;
                    self.give_back();
                    // SAFETY: no memory is lent.
                    unsafe { raise(STOP) };
                    self.take();
                    show(&self.line, "")?;
                }
                Typed::Closed => {
                    say("\n")?;
                    return Ok(None);
                }
            }
        }
    }

    /// Has keys come one by one. What is written goes out as before.
    fn take(&self) {
        let mut settings = self.found;
        settings.local &= !BY_THE_TERMINAL;
        settings.signs[FEWEST] = 1;
        settings.signs[WAITED] = 0;
        set(&settings);
    }

    fn give_back(&self) {
        set(&self.found);
    }

    /// Leaves a line that is done on the screen, whole.
    fn line_is(&self, line: &str, prompt: &str) -> Result<(), Trouble> {
        say(&format!("\r{prompt}{line}\x1b[K\n")).map(|_| ())
    }

    /// Waits for more bytes; whether there are any.
    fn read_on(&mut self) -> Result<bool, Trouble> {
        let mut input = io::stdin().lock();
        let length = loop {
            match input.fill_buf() {
                Ok(bytes) => {
                    self.ahead.extend(bytes);
                    break bytes.len();
                }
                Err(why) if why.kind() == io::ErrorKind::Interrupted => {}
                Err(why) => return Err(Trouble::Input(format!("standard input: {why}"))),
            }
        };
        input.consume(length);
        Ok(length > 0)
    }
}

impl Drop for Terminal {
    fn drop(&mut self) {
        self.give_back();
    }
}

fn set(settings: &Settings) {
    // SAFETY: the settings are lent for the call.
    unsafe { tcsetattr(INPUT, NOW, settings) };
}
