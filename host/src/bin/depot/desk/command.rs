//! A line's command.
use crate::clock::{is_time, whole};
use crate::meant::is_near;
use crate::outcome::visible;
use depot_host::units::power;
use depot_host::Refusal;

/// A controller's figures in an opening or a change, in hundreds of watts.
#[derive(Clone)]
pub struct Place {
    pub name: String,
    pub assured: u32,
    pub ceiling: u32,
}

/// What an opening may look like.
pub const OPENING: &str = "open 500 yard=240/420 workshop=100/200";

/// What a change may look like.
const CHANGE: &str = "change 400 yard=180/360 workshop=100/200";

pub enum Command {
    /// `anew` where the desk may hold power, which is forgotten then.
    Open {
        limit: u32,
        places: Vec<Place>,
        anew: bool,
    },
    Change {
        limit: u32,
        places: Vec<Place>,
    },
    Claim {
        controller: u32,
        power: u32,
    },
    Back {
        controller: u32,
        power: u32,
    },
    Look(Option<u32>),
    Show,
    Save(String),
    Load {
        file: String,
        anew: bool,
    },
    Log(String),
    Undo,
    Explain(u32),
    Help,
    Quit,
}

/// The command of a line, or why it is none; `names` are the controllers'.
pub fn read(line: &str, names: &[String]) -> Result<Command, String> {
    if line.chars().any(|c| c.is_control() && c != '\t') {
        return Err(format!("found '{}'; allowed: a command in plain text, without keys such as the arrows", visible(line)));
    }
    let words: Vec<&str> = line.split_whitespace().collect();
    let Some((verb, rest)) = words.split_first() else { return Err(none_such(line, "")) };
    let verb = verb.to_ascii_lowercase();
    let wrong = |allowed: String| Err(format!("found '{line}'; allowed: {allowed}"));
    match (verb.as_str(), rest) {
        ("open" | "open!", []) => Err(format!("found '{line}' alone; allowed: open LIMIT SHARE/CEILING .., as '{OPENING}'")),
        ("open" | "open!", [limit, places @ ..]) => open(limit, places, verb == "open!"),
        ("change", []) => Err(format!("found 'change' alone; allowed: change LIMIT SHARE/CEILING .., as '{CHANGE}'")),
        ("change", [limit, places @ ..]) => change(limit, places, names),
        ("claim", [who, kw]) => Ok(Command::Claim { controller: controller(who, names)?, power: power(kw)? }),
        ("back", [who, kw]) => Ok(Command::Back { controller: controller(who, names)?, power: power(kw)? }),
        ("claim" | "back", _) => wrong(format!("{verb} CONTROLLER KW, as '{verb} 0 12.5'")),
        ("look", []) => Ok(Command::Look(None)),
        ("look", [who]) => Ok(Command::Look(Some(controller(who, names)?))),
        ("look", _) => wrong("look, or look CONTROLLER".into()),
        ("show", []) => Ok(Command::Show),
        ("save" | "load" | "load!" | "log", ["-"]) => wrong(format!("{verb} FILE, a name of its own")),
        ("save", [file]) => Ok(Command::Save(file.to_string())),
        ("load" | "load!", [file]) => Ok(Command::Load { file: file.to_string(), anew: verb == "load!" }),
        ("log", [file]) => Ok(Command::Log(file.to_string())),
        ("save" | "load" | "load!" | "log", _) => wrong(format!("{verb} FILE, a name without a space")),
        ("undo", []) => Ok(Command::Undo),
        ("explain", [word]) => {
            let number = whole(word).ok_or(format!("found '{word}'; allowed: a refusal's number, {}", Refusal::NUMBERS))?;
            Ok(Command::Explain(number))
        }
        ("help", []) => Ok(Command::Help),
        ("quit" | "exit", []) => Ok(Command::Quit),
        (time, ["claim" | "back" | "change", ..]) if is_time(time) => {
            wrong("commands without a time; 'depot run LIST --script FILE' takes calls with one".into())
        }
        _ => Err(none_such(line, &verb)),
    }
}

/// The commands, and words that people try for them.
const MEANT: [(&str, &[&str]); 13] = [
    ("open", &["new", "start"]),
    ("change", &["set", "limit", "shares"]),
    ("claim", &["take", "request", "grab", "want", "need"]),
    ("back", &["release", "return", "hand", "handback", "hand-back", "give", "free"]),
    ("look", &["ask", "may"]),
    ("show", &["status", "state", "list", "desk"]),
    ("save", &["store", "write"]),
    ("load", &["restore", "read"]),
    ("log", &["record"]),
    ("undo", &["revert"]),
    ("explain", &["why", "what"]),
    ("help", &["?", "commands"]),
    ("quit", &["bye", "end", "stop", "q"]),
];

/// What is said of a line that begins with no command's word.
fn none_such(line: &str, verb: &str) -> String {
    let meant =
        MEANT.iter().find(|(command, others)| others.contains(&verb) || is_near(verb, command)).map(|(command, _)| *command);
    let hint = meant.map_or(String::new(), |command| format!("; did you mean '{command}'?"));
    let all: Vec<&str> = MEANT.iter().map(|(command, _)| *command).collect();
    format!("found '{line}'; allowed: {}{hint}", all.join(", "))
}

/// The controller of this number or name, or why it is none.
pub fn controller(word: &str, names: &[String]) -> Result<u32, String> {
    let named = names.iter().position(|name| name == word).map(|place| place as u32);
    named.or_else(|| whole(word)).ok_or_else(|| {
        if names.is_empty() {
            return no_desk();
        }
        if let Some((name, kw)) = word.split_once('=').filter(|(name, _)| names.iter().any(|other| other == name)) {
            return format!("found '{word}'; allowed: a controller and then kW, as '{name} {kw}'");
        }
        let given: Vec<&str> = given_names(names).collect();
        let known = if given.is_empty() { String::new() } else { format!(" or one of the names {}", given.join(", ")) };
        format!("found '{word}'; allowed: a controller's number{known}")
    })
}

/// What is said where a desk is needed.
pub fn no_desk() -> String {
    format!("there is no desk yet; open one first, as '{OPENING}'")
}

/// The names that an opening gave; no other name is one word.
pub fn given_names(names: &[String]) -> impl Iterator<Item = &str> {
    names.iter().map(String::as_str).filter(|name| !name.contains(' '))
}

fn open(limit: &str, words: &[&str], anew: bool) -> Result<Command, String> {
    let limit = power(limit)?;
    let mut places: Vec<Place> = Vec::new();
    for (number, word) in words.iter().enumerate() {
        let place = place(number, word)?;
        if places.iter().any(|other| other.name == place.name) {
            return Err(format!("found the name '{}' twice; allowed: a name for each controller", place.name));
        }
        places.push(place);
    }
    Ok(Command::Open { limit, places, anew })
}

/// New figures in the controllers' order; where a name or a number stands before them, they are that controller's.
fn change(limit: &str, words: &[&str], names: &[String]) -> Result<Command, String> {
    let limit = power(limit)?;
    let mut places: Vec<(usize, Place)> = Vec::new();
    for (number, word) in words.iter().enumerate() {
        let (number, figures) = match word.split_once('=') {
            Some((name, figures)) => (controller(name, names)? as usize, figures),
            None => (number, *word),
        };
        if places.iter().any(|(other, _)| *other == number) {
            return Err(format!("found '{word}'; allowed: new figures for each controller once"));
        }
        let name = names.get(number).cloned().unwrap_or(format!("controller {number}"));
        let (assured, ceiling) = pair(word, figures)?;
        places.push((number, Place { name, assured, ceiling }));
    }
    places.sort_by_key(|(number, _)| *number);
    if let Some(missing) = places.iter().enumerate().position(|(place, (number, _))| place != *number) {
        return Err(format!("found no figures for controller {missing}; allowed: new figures for each controller"));
    }
    Ok(Command::Change { limit, places: places.into_iter().map(|(_, place)| place).collect() })
}

/// `SHARE/CEILING` or `NAME=SHARE/CEILING`
fn place(number: usize, word: &str) -> Result<Place, String> {
    let (name, figures) = match word.split_once('=') {
        Some((name, _)) if name.is_empty() || whole(name).is_some() => return Err(no_pair(word)),
        Some((name, figures)) => (name.to_string(), figures),
        None => (format!("controller {number}"), word),
    };
    let (assured, ceiling) = pair(word, figures)?;
    Ok(Place { name, assured, ceiling })
}

/// The two figures of `SHARE/CEILING`, which stands in this word.
fn pair(word: &str, figures: &str) -> Result<(u32, u32), String> {
    let (assured, ceiling) = figures.split_once('/').ok_or_else(|| no_pair(word))?;
    Ok((power(assured)?, power(ceiling)?))
}

fn no_pair(word: &str) -> String {
    format!("found '{word}'; allowed: SHARE/CEILING or NAME=SHARE/CEILING, as 240/420 or yard=240/420")
}

#[test]
fn words_that_were_meant() {
    let meant = |word: &str| none_such(word, word).split("; did you mean ").nth(1).map(String::from);
    for (word, command) in
        [("release", "back"), ("calim", "claim"), ("opn", "open"), ("bakc", "back"), ("lok", "look"), ("shows", "show")]
    {
        assert_eq!(meant(word), Some(format!("'{command}'?")), "{word}");
    }
    assert_eq!(["", "x", "yard", "ésay"].map(meant), [const { None }; 4]);
}
