//! What the other controllers do: a script's calls at their minutes, or a greedy neighbour.
use crate::clock::whole;
use crate::coding::text_of;
use crate::desk::{command, Command, Place};
use crate::outcome::{bytes_of, visible, Trouble};
use crate::planned::Planned;
use depot_host::random::Random;
use depot_host::Desk;

/// A call on the desk.
#[derive(Clone)]
pub enum Call {
    Claim { controller: u32, power: u32 },
    Back { controller: u32, power: u32 },
    Change { limit: u32, places: Vec<Place> },
}

pub enum Others {
    Greedy(Greedy),
    Script(Script),
}

impl Others {
    /// Whether nothing comes from this minute on but what a greedy neighbour thinks of.
    pub fn are_done(&self, minute: u32) -> bool {
        match self {
            Others::Greedy(_) => true,
            Others::Script(script) => script.calls.iter().all(|(at, _)| *at < minute),
        }
    }

    /// How many calls a controller or line may make in a minute, and the call of each, where it makes one.
    pub fn call(&mut self, minute: u32, turn: usize, desk: &Desk, own: usize, size: u32) -> Option<Option<Call>> {
        match self {
            Others::Greedy(_) if turn >= desk.count as usize => None,
            Others::Greedy(_) if turn == own => Some(None),
            Others::Greedy(greedy) => Some(greedy.call(desk, turn as u32, size)),
            Others::Script(script) => {
                script.calls.iter().filter(|(at, _)| *at == minute).nth(turn).map(|(_, call)| Some(call.clone()))
            }
        }
    }
}

/// A neighbour that claims all that a look shows, and at some minutes hands back some of it.
pub struct Greedy {
    random: Random,
}

/// In so many minutes of a hundred it hands back.
const HANDS_BACK: u32 = 6;

impl Greedy {
    pub fn new(seed: u64) -> Greedy {
        Greedy { random: Random::new(seed) }
    }

    fn call(&mut self, desk: &Desk, controller: u32, size: u32) -> Option<Call> {
        let held = desk.held[controller as usize];
        if self.random.percent(HANDS_BACK) && held > 0 {
            let modules = held / size.max(1);
            let power = if modules == 0 { held } else { size * self.random.between(1, modules) };
            return Some(Call::Back { controller, power });
        }
        let power = desk.look(controller).expect("one of the desk's controllers");
        (power > 0).then_some(Call::Claim { controller, power })
    }
}

/// A script: the desk, where it opens one, and calls at their minutes.
pub struct Script {
    pub opening: Option<(u32, Vec<Place>)>,
    calls: Vec<(u32, Call)>,
}

/// The last minute of a script.
const LAST: u32 = 9_999;

impl Script {
    /// Reads a script: the desk's commands open, claim, back and change, with a minute or a time of day before each but the first.
    pub fn read(file: &str, plan: &Planned) -> Result<Script, Trouble> {
        let bytes = bytes_of(file)?;
        let text = text_of(&bytes);
        let mut script = Script { opening: None, calls: Vec::new() };
        let mut faults = Vec::new();
        for (place, line) in text.lines().enumerate() {
            let line = line.trim();
            if line.is_empty() || line.starts_with('#') {
                continue;
            }
            if let Err(why) = script.take(&visible(&line.replace('\t', " ")), plan) {
                faults.push(format!("{file}, line {}: {why}", place + 1));
            }
        }
        script.calls.sort_by_key(|(minute, _)| *minute);
        if faults.is_empty() {
            return Ok(script);
        }
        Err(Trouble::Input(faults.join("\n")))
    }

    fn names(&self) -> Vec<String> {
        match &self.opening {
            Some((_, places)) => places.iter().map(|place| place.name.clone()).collect(),
            None => ["yard", "neighbour"].map(String::from).to_vec(),
        }
    }

    fn take(&mut self, line: &str, plan: &Planned) -> Result<(), String> {
        let (time, rest) = line.split_once(char::is_whitespace).unwrap_or((line, ""));
        if time == "open" {
            return match command::read(line, &[])? {
                Command::Open { limit, places, anew: false } if self.opening.is_none() && self.calls.is_empty() => {
                    self.opening = Some((limit, places));
                    Ok(())
                }
                _ => Err("found 'open'; allowed: one desk, before the first call".into()),
            };
        }
        let minute = whole(time).or_else(|| if plan.has_start { plan.clock.minute(time) } else { None });
        let minute = minute.filter(|minute| *minute <= LAST).ok_or_else(|| {
            let times = if plan.has_start { ", or a time of day," } else { "" };
            format!(
                "found '{line}'; allowed: a minute{times} and then claim, back or change, as '10 claim {} 30'",
                self.names()[1]
            )
        })?;
        let call = match command::read(rest.trim(), &self.names())? {
            Command::Claim { controller, power } => Call::Claim { controller, power },
            Command::Back { controller, power } => Call::Back { controller, power },
            Command::Change { limit, places } => Call::Change { limit, places },
            _ => return Err(format!("found '{}'; allowed: claim, back or change", rest.trim())),
        };
        self.calls.push((minute, call));
        Ok(())
    }
}
