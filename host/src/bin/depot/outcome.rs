//! How a run ends: answered, refused, or in trouble.
use std::fs;
use std::io::{self, Read, Write};

/// What the library, or the reading of a list, said.
#[derive(Clone, Copy, Debug, PartialEq, Eq)]
pub enum Outcome {
    Answered,
    Refused,
}

/// Why there is no answer.
#[derive(Debug)]
pub enum Trouble {
    /// The command line is wrong; the verb whose help is to be read, if any.
    Usage { why: String, verb: String },
    /// A file cannot be read or written, or has lines that are no commands.
    Input(String),
    /// The list has faults, a line for each.
    List(String),
}

impl Trouble {
    pub fn usage(why: impl Into<String>, verb: &str) -> Trouble {
        Trouble::Usage { why: why.into(), verb: verb.into() }
    }

    pub fn status(&self) -> i32 {
        match self {
            Trouble::List(_) => 1,
            Trouble::Usage { .. } | Trouble::Input(_) => 2,
        }
    }

    /// Says it on standard error.
    pub fn tell(&self) {
        match self {
            Trouble::Usage { why, verb } if verb.is_empty() => eprintln!("depot: {why}; 'depot --help' names the verbs"),
            Trouble::Usage { why, verb } => eprintln!("depot {verb}: {why}; 'depot {verb} --help' shows what it takes"),
            Trouble::Input(why) => eprintln!("depot: {why}"),
            Trouble::List(faults) => eprint!("{faults}"),
        }
    }

    /// What is wrong, alone.
    pub fn text(self) -> String {
        match self {
            Trouble::Usage { why, .. } | Trouble::Input(why) | Trouble::List(why) => why,
        }
    }
}

/// Writes to standard output; a reader that has gone is no trouble.
pub fn say(text: &str) -> Result<Outcome, Trouble> {
    let mut output = io::stdout().lock();
    match output.write_all(text.as_bytes()).and_then(|()| output.flush()) {
        Err(why) if why.kind() != io::ErrorKind::BrokenPipe => Err(Trouble::Input(format!("standard output: {why}"))),
        _ => Ok(Outcome::Answered),
    }
}

/// The bytes of a file, or of standard input where the name is `-`.
pub fn bytes_of(file: &str) -> Result<Vec<u8>, Trouble> {
    let read = if file == "-" { io::stdin().lock().bytes().collect() } else { fs::read(file) };
    read.map_err(|why| Trouble::Input(format!("'{}' cannot be read: {}", visible(file), plain(&why))))
}

/// Writes a file, or standard output where the name is `-`.
pub fn put(file: &str, bytes: &[u8]) -> Result<(), Trouble> {
    let written = if file == "-" { io::stdout().lock().write_all(bytes) } else { fs::write(file, bytes) };
    written.map_err(|why| Trouble::Input(unwritable(file, &why)))
}

/// Why a file was not written.
pub fn unwritable(file: &str, why: &io::Error) -> String {
    format!("'{}' cannot be written: {}", visible(file), plain(why))
}

/// A text in a message: what a terminal would not show, or take for a command, is escaped.
pub fn visible(text: &str) -> String {
    text.chars().map(|c| if c.is_control() { c.escape_debug().to_string() } else { c.to_string() }).collect()
}

fn plain(why: &io::Error) -> String {
    match why.kind() {
        io::ErrorKind::NotFound => "there is no such file or folder".into(),
        io::ErrorKind::PermissionDenied => "it is not permitted".into(),
        io::ErrorKind::IsADirectory => "it is a folder".into(),
        _ => why.to_string(),
    }
}

#[test]
fn control_bytes_are_shown() {
    assert_eq!(visible("B\u{1b}[A\t'é'\0"), "B\\u{1b}[A\\t'é'\\0");
}
