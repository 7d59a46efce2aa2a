//! `depot explain`: what a refusal means and what to do.
use crate::arguments::{Arguments, Takes};
use crate::clock::whole;
use crate::json;
use crate::outcome::{say, Outcome, Trouble};
use depot_host::Refusal;
use std::fmt::Write;

const TAKES: Takes =
    Takes { verb: "explain", flags: &["--json"], values: &[], plain: &["a refusal's number"], needed: 0, more: false };

const PLANNING: &str = "planning, the end alone, the use of the cabinet, slack, job sets, starts of a runner";
const ORDERS: &str = "planning, the end alone, the least count, the use of the cabinet, slack, job sets, starts of a runner";
const READING: &str =
    "reading, labels, planning, the end alone, the least count, the use of the cabinet, slack, job sets, starts of a runner";
const READING_AND_WRITING: &str =
    "reading, labels, planning, the end alone, the least count, the use of the cabinet, slack, job sets, starts of a runner, writing";

/// Which calls refuse with each number, and what to do, in the order of the numbers.
const TO_DO: [(Refusal, &str, &str); 26] = [
    (Refusal::SheetLength, READING, "The file is no job sheet, or it was cut off or joined with another. Make it again: 'depot sheet LIST.csv -o FILE'."),
    (Refusal::TooManyJobs, READING_AND_WRITING, "Split the list: a cabinet plans up to 20 charges at a time."),
    (Refusal::CabinetSize, READING_AND_WRITING, "Put the number of the cabinet's modules, 1 to 64, into the line 'cabinet,N' of the list."),
    (Refusal::RecordOffset, READING, "The file was damaged, or is no job sheet. Make it again from the list."),
    (
        Refusal::RecordField,
        READING_AND_WRITING,
        "Correct the job: label of 1 to 16 characters, modules 1 to 255, minutes 1 to 1440, departure 0 to 2880, arrival 0 to 1440, \
         and only jobs of the same list in 'after'. 'depot sheet' names the line and the column.",
    ),
    (Refusal::LabelLengths, READING_AND_WRITING, "The file was damaged, or a program wrote wrong label lengths. Make it again from the list."),
    (Refusal::LabelByte, READING_AND_WRITING, "Write labels in plain letters, digits and signs, without accents, and with spaces inside alone."),
    (Refusal::OverWide, PLANNING, "Give the job fewer modules, or plan it on a larger cabinet: as it stands it has no plan. 'depot plan' names the job."),
    (Refusal::Circular, ORDERS, "Take one 'after' out of the circle: as it stands no job of it can start. 'depot plan' names a circle."),
    (Refusal::BufferTooShort, "planning, the least count, writing", "A fault of the calling program: lend 13 bytes for each job and 8 for a card, 570 for every sheet."),
    (Refusal::ListLengths, "opening, changes", "Give 2 to 8 controllers, each with a share and a ceiling; in a change as many as the desk has."),
    (Refusal::DeskFigures, "opening, changes", "Choose a limit of 0.1 to 40,000 kW, ceilings within it, and for each controller a share within its ceiling."),
    (Refusal::SharesExceedLimit, "opening, changes", "Lower the shares until they add up to the limit or less: what is assured must fit on the feeder at once."),
    (
        Refusal::NoSuchNumber,
        "labels, claims, hand-backs, looks, changes, starts and steps of a runner",
        "Use a number below the count: the first job or controller is 0. If the number is right, the desk's figures were altered by \
         something other than its calls: open it anew once nobody holds anything. A step also refuses a runner that was altered, or that \
         a refused start gave: start one anew, and keep what each step hands back.",
    ),
    (Refusal::ForNothing, "claims, hand-backs", "Name 0.1 kW or more: the desk counts in hundreds of watts."),
    (Refusal::PassesCeiling, "claims, steps of a runner", "Claim less, or hand back first: the ceiling is this controller's own bound, whatever the others hold. A look gives the figure."),
    (
        Refusal::DoesNotFit,
        "claims, steps of a runner",
        "Claim less, or wait until another controller hands back: what others hold, and what is assured to them, is not given away. \
         A look gives the figure.",
    ),
    (Refusal::ExceedsHolding, "hand-backs, steps of a runner", "Hand back no more than the controller holds: 'show' has the figure."),
    (
        Refusal::Changeover,
        READING_AND_WRITING,
        "Put the minutes that a module rests between two jobs, 0 to 30, into the line 'changeover,C' of the list, or leave the line out \
         where modules need no rest. A sheet of a program that knows no changeover has two bytes too few: make it again from the list.",
    ),
    (
        Refusal::NoCountServes,
        "the least count",
        "Ask for a later minute, or shorten what cannot be run side by side: even 64 modules have no plan that ends by then. 'depot size' \
         names a job that is wider than every cabinet, or the jobs that wait for one another for too long. Where it names none, some buses \
         have to move to another cabinet.",
    ),
    (
        Refusal::HoldingAboveCeiling,
        "changes",
        "Choose a ceiling that covers what the controller holds, or have it hand back first: a change takes nothing from anybody.",
    ),
    (
        Refusal::HoldingsExceedLimit,
        "changes",
        "Choose a larger limit or smaller shares, or have controllers hand back first: what is held, and what is newly assured beyond it, \
         must fit under the new limit at once.",
    ),
    (
        Refusal::NoJobs,
        "the use of the cabinet",
        "Put a job into the list, or leave the list out: a plan without jobs ends at its start, and of no minutes there is no share.",
    ),
    (Refusal::ModuleSize, "starts of a runner", "Give the power of one module, 0.1 to 1,000 kW: the start takes it in hundreds of watts, 1 to 10,000."),
    (
        Refusal::NotReady,
        "starts of a runner",
        "Assure the controller of the cabinet's modules times the power of one, by an opening or a change, and have it hand back all that it \
         holds: then every call of the plan is granted.",
    ),
    (
        Refusal::CardUnfit,
        "starts of a runner",
        "Lend the card's own bytes, 13 for each job and 8, and the sheet that it was planned from. A card of an older cabinet may be of \
         another sheet, or not valid under this sheet's arrivals and changeover: plan the sheet anew.",
    ),
];

pub fn run(words: &[String]) -> Result<Outcome, Trouble> {
    let arguments = Arguments::read(&TAKES, words)?;
    let as_json = arguments.has("--json");
    let Some(word) = arguments.plain(0) else {
        return say(&if as_json { json::list(Refusal::all().map(in_json)) + "\n" } else { overview() });
    };
    let found = whole(word).and_then(Refusal::of_number);
    let refusal = found.ok_or_else(|| {
        Trouble::usage(format!("there is no refusal '{word}': they have the numbers {}", Refusal::NUMBERS), "explain")
    })?;
    say(&if as_json { in_json(refusal) + "\n" } else { words_of(refusal) })
}

/// Which calls refuse with it, and what to do.
fn to_do(refusal: Refusal) -> (&'static str, &'static str) {
    let found = TO_DO.iter().find(|(of, ..)| *of == refusal);
    found.map(|(_, calls, to_do)| (*calls, *to_do)).expect("every refusal is explained")
}

/// What a refusal means and what to do, in words.
pub fn words_of(refusal: Refusal) -> String {
    let (calls, to_do) = to_do(refusal);
    format!("Refusal {}: {refusal}.\nCalls that refuse with it: {calls}.\nWhat to do: {to_do}\n", refusal.number())
}

fn overview() -> String {
    let mut text = String::new();
    for refusal in Refusal::all() {
        writeln!(text, "{:>2}  {refusal}", refusal.number()).unwrap();
    }
    text + "\n'depot explain N' says what to do.\n"
}

fn in_json(refusal: Refusal) -> String {
    let (calls, to_do) = to_do(refusal);
    json::object(&[
        ("refusal", refusal.number().to_string()),
        ("means", json::text(&refusal.to_string())),
        ("calls", json::text(calls)),
        ("to_do", json::text(to_do)),
    ])
}
