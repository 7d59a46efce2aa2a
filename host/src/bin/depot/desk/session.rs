//! The desk between two lines: each command is one call of the library, or shows what the desk's fields say.
use super::command::{no_desk, Command, Place};
use super::{bars, kept, reasons};
use crate::{explain, json};
use depot_host::units::in_kw;
use depot_host::{Desk, Refusal};

#[derive(Default)]
pub struct Session {
    now: State,
    /// What each command that changed the desk found, the last one behind.
    before: Vec<(String, State)>,
}

/// A desk, where one is open, and the controllers' names.
#[derive(Clone, Default, PartialEq, Eq)]
struct State {
    desk: Option<Desk>,
    names: Vec<String>,
}

/// What a command gives.
pub enum Answer {
    Said { text: String, json: String, refused: bool },
    Log(String),
    Help,
    Quit,
}

/// What is said of an undone command: the desk is a book, and nobody reads it by itself.
const UNDONE: &str =
    "Tell whoever acted on it: power that is drawn on an undone claim is on no account, and what was handed back counts \
                      as held again.";

impl Session {
    /// The controllers' names.
    pub fn names(&self) -> &[String] {
        &self.now.names
    }

    /// The desk, where one is open.
    pub fn left(&self) -> Option<Desk> {
        self.now.desk
    }

    /// Answers a command, which stands on this line.
    pub fn call(&mut self, command: Command, line: &str) -> Result<Answer, String> {
        if let Command::Undo = command {
            return self.undo();
        }
        let before = self.now.clone();
        let answer = self.answer(command);
        if self.now != before {
            self.before.push((line.into(), before));
        }
        answer
    }

    fn answer(&mut self, command: Command) -> Result<Answer, String> {
        match command {
            Command::Open { limit, places, anew } => self.open(limit, places, anew),
            Command::Change { limit, places } => self.change(limit, places),
            Command::Claim { controller, power } => self.book("claim", controller, power),
            Command::Back { controller, power } => self.book("back", controller, power),
            Command::Look(controller) => self.look(controller),
            Command::Show => self.show(),
            Command::Save(file) => self.save(&file),
            Command::Load { file, anew } => self.load(&file, anew),
            Command::Undo => self.undo(),
            Command::Explain(number) => {
                let refusal =
                    Refusal::of_number(number).ok_or(format!("found '{number}'; allowed: refusals {}", Refusal::NUMBERS))?;
                let text = explain::words_of(refusal);
                Ok(Answer::Said { json: json::object(&[("explain", json::text(&text))]), text, refused: false })
            }
            Command::Log(file) => Ok(Answer::Log(file)),
            Command::Help => Ok(Answer::Help),
            Command::Quit => Ok(Answer::Quit),
        }
    }

    fn desk(&mut self) -> Result<&mut Desk, String> {
        self.now.desk.as_mut().ok_or_else(no_desk)
    }

    /// Refuses to forget what is held, unless that is asked for.
    fn may_forget(&self, verb: &str, anew: bool) -> Result<(), String> {
        let held: Vec<String> = self.holdings().iter().map(|(name, held)| format!("{name} {held}")).collect();
        if anew || held.is_empty() {
            return Ok(());
        }
        let held = held.join(", ");
        Err(format!("this desk holds power, which would be forgotten: {held} kW; allowed: back first, or '{verb}!' to forget it"))
    }

    /// Who holds how much, those that hold nothing left out.
    fn holdings(&self) -> Vec<(&str, String)> {
        let held = self.now.desk.iter().flat_map(|desk| desk.held);
        self.now.names.iter().zip(held).filter(|(_, held)| *held > 0).map(|(name, held)| (name.as_str(), in_kw(held))).collect()
    }

    /// The desk that a command put in place of the one before.
    fn shown_anew(&self, did: &str, head: &[(&str, String)]) -> Answer {
        let desk = self.now.desk.expect("a desk was put there");
        let text = format!("{did}\n{}", bars::text(&desk, &self.now.names));
        Answer::Said { text, json: json::object(&[head, &self.figures(&desk)].concat()), refused: false }
    }

    fn open(&mut self, limit: u32, places: Vec<Place>, anew: bool) -> Result<Answer, String> {
        self.may_forget("open", anew)?;
        let (assured, ceilings) = figures_of(&places);
        let head = [("call", json::text("open")), ("limit_kw", in_kw(limit))];
        Ok(match Desk::open(limit, &assured, &ceilings) {
            Ok(desk) => {
                self.now = State { desk: Some(desk), names: places.into_iter().map(|place| place.name).collect() };
                self.shown_anew("opened", &head)
            }
            Err(refusal) => refused(&head, refusal, reasons::of_opening(limit, &places, refusal)),
        })
    }

    fn save(&mut self, file: &str) -> Result<Answer, String> {
        let desk = *self.desk()?;
        kept::save(file, &desk, &self.now.names)?;
        let json = json::object(&[("call", json::text("save")), ("file", json::text(file))]);
        Ok(Answer::Said { text: format!("saved to {file}\n"), json, refused: false })
    }

    fn load(&mut self, file: &str, anew: bool) -> Result<Answer, String> {
        self.may_forget("load", anew)?;
        let (desk, names) = kept::load(file)?;
        self.now = State { desk: Some(desk), names };
        Ok(self.shown_anew(&format!("loaded from {file}"), &[("call", json::text("load")), ("limit_kw", in_kw(desk.limit))]))
    }

    fn undo(&mut self) -> Result<Answer, String> {
        let (line, before) = self.before.pop().ok_or("no command has changed the desk; there is nothing to undo")?;
        self.now = before;
        let head = [("call", json::text("undo")), ("undone", json::text(&line))];
        let (shown, figures) = match self.now.desk {
            Some(desk) => (bars::text(&desk, &self.now.names), self.figures(&desk)),
            None => ("no desk is open\n".into(), Vec::new()),
        };
        let text = format!("undone: {line}. {UNDONE}\n{shown}");
        Ok(Answer::Said { text, json: json::object(&[&head[..], &figures].concat()), refused: false })
    }

    fn change(&mut self, limit: u32, places: Vec<Place>) -> Result<Answer, String> {
        let desk = self.desk()?;
        let before = *desk;
        let (assured, ceilings) = figures_of(&places);
        let answer = desk.change(limit, &assured, &ceilings);
        let head = [("call", json::text("change")), ("limit_kw", in_kw(limit))];
        Ok(match answer {
            Ok(()) => self.shown_anew("changed", &head),
            Err(refusal) => refused(&head, refusal, reasons::of_change(&before, limit, &places, refusal)),
        })
    }

    /// A claim or a hand-back.
    fn book(&mut self, call: &str, controller: u32, power: u32) -> Result<Answer, String> {
        let desk = self.desk()?;
        let before = *desk;
        let answer = if call == "claim" { desk.claim(controller, power) } else { desk.hand_back(controller, power) };
        let after = *desk;
        let mut head = vec![("call", json::text(call)), ("controller", controller.to_string())];
        head.extend(self.name_of(controller));
        head.push(("kw", in_kw(power)));
        Ok(match answer {
            Ok(()) => {
                let [power, held] = [power, after.held[controller as usize]].map(in_kw);
                let did = if call == "claim" { "granted: claims" } else { "done: hands back" };
                let text = format!("{did} {power} kW; {} now holds {held}\n", self.now.names[controller as usize]);
                let json = json::object(&[&head[..], &[("held_kw", held)]].concat());
                Answer::Said { text, json, refused: false }
            }
            Err(refusal) => refused(&head, refusal, reasons::of_call(&before, &self.now.names, controller, power, refusal)),
        })
    }

    fn look(&mut self, controller: Option<u32>) -> Result<Answer, String> {
        let desk = *self.desk()?;
        let head = |controller: u32| {
            let call = [("call", json::text("look")), ("controller", controller.to_string())];
            call.into_iter().chain(self.name_of(controller)).collect::<Vec<_>>()
        };
        let asked: Vec<u32> = controller.map_or((0..desk.count).collect(), |one| vec![one]);
        let mut text = String::new();
        let mut objects = Vec::new();
        for controller in asked {
            match desk.look(controller) {
                Ok(most) => {
                    text += &(reasons::most_in_words(&self.now.names[controller as usize], most) + "\n");
                    objects.push(json::object(&[head(controller), vec![("kw", in_kw(most))]].concat()));
                }
                Err(refusal) => {
                    let why = reasons::of_call(&desk, &self.now.names, controller, 0, refusal);
                    return Ok(refused(&head(controller), refusal, why));
                }
            }
        }
        Ok(Answer::Said { text, json: objects.join("\n"), refused: false })
    }

    fn show(&mut self) -> Result<Answer, String> {
        let desk = *self.desk()?;
        let head = [("call", json::text("show")), ("limit_kw", in_kw(desk.limit))];
        let json = json::object(&[&head[..], &self.figures(&desk)].concat());
        Ok(Answer::Said { text: bars::text(&desk, &self.now.names), json, refused: false })
    }

    /// A controller's name, where the desk has one of that number.
    fn name_of(&self, controller: u32) -> Option<(&'static str, String)> {
        self.now.names.get(controller as usize).map(|name| ("name", json::text(name)))
    }

    fn figures(&self, desk: &Desk) -> Vec<(&'static str, String)> {
        let of = |i: usize| {
            json::object(&[
                ("name", json::text(&self.now.names[i])),
                ("held_kw", in_kw(desk.held[i])),
                ("assured_kw", in_kw(desk.assured[i])),
                ("ceiling_kw", in_kw(desk.ceiling[i])),
                ("look_kw", in_kw(bars::may_claim(desk, i))),
            ])
        };
        vec![("controllers", json::list((0..desk.count as usize).map(of)))]
    }
}

/// The shares and the ceilings.
fn figures_of(places: &[Place]) -> (Vec<u32>, Vec<u32>) {
    places.iter().map(|place| (place.assured, place.ceiling)).unzip()
}

fn refused(head: &[(&str, String)], refusal: Refusal, why: Vec<String>) -> Answer {
    let number = refusal.number();
    let mut text = format!("refused {number}: {refusal}\n");
    why.iter().for_each(|line| text += &format!("  {line}\n"));
    let sums = json::list(why.iter().map(|line| json::text(line)));
    let members = [("refused", number.to_string()), ("why", json::text(&refusal.to_string())), ("sums", sums)];
    Answer::Said { text, json: json::object(&[head, &members].concat()), refused: true }
}
