//! What `depot` answers: golden outputs of every verb, the committed pictures, round trips, and the printing program's lines.
//!
//! With DEPOT_GOLDEN=write the golden outputs and the pictures are written instead; look at what changed before it is kept.
mod command;

use command::{depot, file, run, top, Run};
use depot_host::compare::sheets;
use depot_host::random::Random;
use depot_host::{card_length, plan, Card};
use std::io::{BufRead, BufReader};
use std::path::Path;
use std::process::{Command, Stdio};
use std::{env, fs};

const EXAMPLES: [&str; 5] = ["small-depot", "mixed-night", "hard-night", "on-the-road", "contactors"];
const SCRIPT: &str = "examples/shared-feeder.desk";
const NIGHT: &str = "examples/workshop-night.desk";

/// Holds bytes to a file of the repository.
fn same(path: &str, found: &[u8]) {
    let full = top().join(path);
    if env::var("DEPOT_GOLDEN").as_deref() == Ok("write") {
        fs::write(&full, found).expect("the golden file is written");
    }
    let kept = fs::read(&full).unwrap_or_else(|why| panic!("{path}: {why}"));
    assert!(kept == found, "{path} differs; it would be:\n{}", String::from_utf8_lossy(found));
}

/// What a run said on standard error, but for how long it has been searching: that depends on what else the machine does.
fn faults(ran: &Run) -> Vec<&str> {
    let progress = ["a long search: ", "searching for ", "searched for "];
    ran.errors.lines().filter(|line| !progress.iter().any(|start| line.starts_with(start))).collect()
}

fn golden(name: &str, words: &[&str], status: i32) {
    let ran = depot(words, b"");
    assert_eq!(ran.status, status, "{words:?}: {}", ran.errors);
    assert!(faults(&ran).is_empty(), "{words:?}: {}", ran.errors);
    same(&format!("host/tests/golden/{name}"), &ran.output);
}

#[test]
fn end() {
    for name in ["small-depot", "mixed-night", "on-the-road", "contactors"] {
        let list = format!("examples/{name}.csv");
        golden(&format!("end-{name}.txt"), &["end", &list], 0);
        let raw = depot(&["end", &list, "--raw"], b"").text();
        let planned = depot(&["plan", &list, "--raw"], b"").text();
        assert_eq!(Some(raw.trim()), planned.split(' ').nth(1), "the end on the first line of the plan");
    }
    golden("end-mixed-night.json", &["end", "examples/mixed-night.csv", "--json"], 0);
    assert_eq!(depot(&["end", "examples/mixed-night.csv", "--raw", "--json"], b"").status, 2);
    let sheet = depot(&["sheet", "examples/small-depot.csv", "-o", "-"], b"").output;
    assert_eq!(
        depot(&["end", "-"], &sheet).text(),
        "The last bus is full 5 h 25 min after the start (minute 325): no plan of 6 jobs on 8 modules ends earlier.\n"
    );
    assert_eq!(
        depot(&["end", "-"], &[0, 0, 0, 0, 0, 0, 1, 0, 0, 0]).text(),
        "There is nothing to charge: the plan of 0 jobs on 1 module ends at its start, minute 0.\n"
    );
}

/// How large a cabinet, in every form; and what decides where none is enough.
#[test]
fn size() {
    let asked = [("small-depot", "04:00"), ("mixed-night", "04:00"), ("on-the-road", "05:30"), ("contactors", "05:30")];
    for (name, by) in asked {
        let list = format!("examples/{name}.csv");
        golden(&format!("size-{name}.txt"), &["size", &list, "--by", by], 0);
        golden(&format!("size-{name}.json"), &["size", &list, "--by", by, "--json"], 0);
        let (sheet, card) = (file("of-list.sheet", b""), file("of-list.card", b""));
        assert_eq!(depot(&["sheet", &list, "-o", &sheet], b"").status, 0);
        let shown = depot(&["size", &list, "--by", by, "--raw", "--memory", "0", "--card", &card], b"").text();
        let sheet = fs::read(&sheet).unwrap();
        let end = depot(&["size", &list, "--by", by, "--json"], b"").text();
        let minute: u16 = end.split("\"by\": ").nth(1).and_then(|rest| rest.split(',').next()).unwrap().parse().unwrap();
        let mut expected = vec![0; fs::read(&card).unwrap().len()];
        let modules = depot_host::size(&sheet, minute, &mut expected, &mut []).unwrap();
        assert_eq!((shown, fs::read(&card).unwrap()), (format!("{modules}\n"), expected));
        assert_eq!(depot(&["size", "-", "--by", &minute.to_string(), "--raw"], &sheet).text(), format!("{modules}\n"));
    }
    let sheet = depot(&["sheet", "examples/small-depot.csv", "-o", "-"], b"").output;
    same("host/tests/golden/size-no-start.txt", &depot(&["size", "-", "--by", "410"], &sheet).output);
    assert_eq!(
        depot(&["size", "-", "--by", "0"], &[0, 0, 0, 0, 0, 0, 7, 0, 0, 0]).text(),
        "1 module is enough: there is nothing to charge. (The list's own cabinet has 7.)\n"
    );
}

/// No cabinet is enough: for one job, for a chain, for a job that is too wide, and for none of these. Every other refusal is planning's.
#[test]
fn no_size() {
    let rows = |rows: &str| {
        file("none.csv", format!("cabinet,8\nstart,21:00\nlabel,modules,minutes,after,departure\n{rows}").as_bytes())
    };
    let refused = |rows: &str| {
        format!("{rows}: refused 20: no cabinet of up to 64 modules is enough: none has a plan that ends by that minute\n")
    };
    for (jobs, line) in [
        ("A,1,90,,60\nB,1,20,,60\n", "  A (line 4) alone cannot end before 22:30, 30 min too late, whatever the cabinet\n"),
        (
            "A,1,40,,60\nB,1,30,A,60\n",
            "  A (line 4), B (line 5), each after the one before, cannot end before 22:10, 10 min too late, whatever the cabinet\n",
        ),
        ("A,65,1,,60\nB,1,20,,60\n", "  A (line 4) needs 65 modules; no cabinet has more than 64\n"),
        ("A,40,40,,60\nB,40,40,,60\n", ""),
    ] {
        let list = rows(jobs);
        let ran = depot(&["size", &list, "--by", "22:00"], b"");
        assert_eq!((ran.status, ran.output.len()), (1, 0));
        assert_eq!(ran.errors, format!("{}{line}  'depot explain 20' says what to do\n", refused(&list)));
        assert_eq!(depot(&["size", &list, "--by", "60", "--raw"], b"").text(), "refused 20\n");
        let json = depot(&["size", &list, "--by", "60", "--json"], b"");
        assert_eq!((json.status, json.text().starts_with("{\"refused\": 20, ")), (1, true));
    }
    let wide = rows("A,9,40,,60\n");
    assert_eq!(depot(&["size", &wide, "--by", "40", "--raw"], b"").text(), "9\n", "wider than the list's own cabinet");
    let circle = rows("A,9,40,A,60\n");
    assert_eq!(depot(&["size", &circle, "--by", "40", "--raw"], b"").text(), "refused 9\n");
    let usage =
        [vec![], vec!["--by", "x"], vec!["--by", "65536"], vec!["--by", "1", "--raw", "--json"], vec!["--by", "1", "--svg", "x"]];
    for words in usage {
        let ran = depot(&[&["size", "examples/small-depot.csv"], &words[..]].concat(), b"");
        assert_eq!((ran.status, ran.output.len()), (2, 0), "{words:?}");
    }
}

#[test]
fn help() {
    golden("help.txt", &["--help"], 0);
    for verb in ["plan", "end", "size", "use", "slack", "sets", "sheet", "list", "desk", "run", "explain"] {
        let name = format!("help-{verb}.txt");
        golden(&name, &[verb, "--help"], 0);
        golden(&name, &["help", verb], 0);
        golden(&name, &[verb, "-h"], 0);
    }
    assert_eq!(
        depot(&["--version"], b"").text(),
        concat!("depot ", env!("CARGO_PKG_VERSION"), "\nlibrary ", env!("CARGO_PKG_VERSION"), "\n")
    );
}

#[test]
fn explain() {
    golden("explain.txt", &["explain"], 0);
    golden("explain.json", &["explain", "--json"], 0);
    let each = (1..=26).map(|number: u32| depot(&["explain", &number.to_string()], b"").text());
    same("host/tests/golden/explain-each.txt", each.collect::<Vec<_>>().join("\n").as_bytes());
    golden("explain-17.json", &["explain", "17", "--json"], 0);
}

/// Table, picture, page and card of one run.
#[test]
fn plans_and_pictures() {
    for name in EXAMPLES {
        let list = format!("examples/{name}.csv");
        let picture = format!("examples/{name}.svg");
        let [svg, html, sheet, card] = ["svg", "html", "sheet", "card"].map(|kind| file(&format!("{name}.{kind}"), b""));
        let ran = depot(&["plan", &list, "--svg", &svg, "--html", &html, "--sheet", &sheet, "--card", &card], b"");
        assert!(ran.status == 0 && faults(&ran).is_empty(), "{}", ran.errors);
        same(&format!("host/tests/golden/plan-{name}.txt"), &ran.output);
        let drawn = fs::read(&svg).unwrap();
        same(&picture, &drawn);
        let page = fs::read_to_string(&html).unwrap();
        if ["mixed-night", "on-the-road", "contactors"].contains(&name) {
            same(&format!("host/tests/golden/plan-{name}.html"), page.as_bytes());
        }
        for outside in ["http:", "https:", "src=", "href=", "<script", "@import"] {
            let elsewhere = page.replace("http://www.w3.org/2000/svg", "");
            assert!(!elsewhere.contains(outside), "{name}: the page asks for something outside: {outside}");
        }
        card_is_the_library_s(&fs::read(&sheet).unwrap(), &fs::read(&card).unwrap());
        let raw = depot(&["plan", &list, "--raw"], b"").output;
        assert_eq!(depot(&["plan", &sheet, "--raw"], b"").output, raw, "the lines of the sheet that was planned");
        assert_eq!(depot(&["plan", &list, "--by-line", "--sheet", &sheet, "--card", &card], b"").status, 0);
        assert_eq!(depot(&["sheet", &list, "-o", "-"], b"").output, fs::read(&sheet).unwrap());
        card_is_the_library_s(&fs::read(&sheet).unwrap(), &fs::read(&card).unwrap());
    }
}

/// The card's bytes are those of the planning call for the sheet.
fn card_is_the_library_s(sheet: &[u8], card: &[u8]) {
    let mut expected = vec![0; card.len()];
    plan(sheet, &mut expected, &mut vec![0; 1 << 20]).unwrap();
    assert_eq!(card, expected);
    let decoded = Card::of(card).unwrap();
    assert_eq!(card.len(), card_length(decoded.rows.len()));
}

#[test]
fn plans_in_other_forms() {
    for name in ["small-depot", "mixed-night", "on-the-road", "contactors"] {
        let list = format!("examples/{name}.csv");
        golden(&format!("plan-{name}.json"), &["plan", &list, "--json"], 0);
        golden(&format!("plan-{name}.raw"), &["plan", &list, "--raw"], 0);
        golden(&format!("plan-{name}.raw"), &["plan", &list, "--raw", "--memory", "0"], 0);
        golden(&format!("plan-{name}.raw"), &["plan", &list, "--raw", "--memory=64K"], 0);
    }
    golden("plan-other-start.txt", &["plan", "examples/small-depot.csv", "--start", "22:30"], 0);
    let sheet = file("no-start.sheet", b"");
    assert_eq!(depot(&["sheet", "examples/small-depot.csv", "-o", &sheet], b"").status, 0);
    let from_input = depot(&["plan", "-"], &fs::read(&sheet).unwrap());
    same("host/tests/golden/plan-no-start.txt", &from_input.output);
    for (changeover, said) in [(0, ""), (1, " with a changeover of 1 minute")] {
        let empty = depot(&["plan", "-"], &[0, 0, 0, 0, 0, 0, 1, 0, changeover, 0]);
        let said = format!("-: 0 jobs on 1 module{said}: nothing to plan; the plan ends at minute 0.\n");
        assert_eq!((empty.status, empty.text()), (0, said));
    }
}

/// The use of the cabinet: the library's two figures, and how many module-minutes they are of.
#[test]
fn use_of_the_cabinet() {
    let lists = ["small-depot", "mixed-night", "on-the-road", "contactors"].map(|name| format!("examples/{name}.csv"));
    let figure = |line: &str, name: &str| -> u64 {
        let text = line.split(&format!("\"{name}\": ")).nth(1).expect("a member");
        text.split([',', '}']).next().unwrap().parse().unwrap()
    };
    let mut sums = [0, 0];
    for list in &lists {
        let sheet = depot(&["sheet", list, "-o", "-"], b"").output;
        let used = depot_host::usage(&sheet, &mut vec![0; 1 << 20]).unwrap();
        assert_eq!(depot(&["use", list, "--raw"], b"").text(), format!("{} {}\n", used.per_mille, used.remainder));
        let json = depot(&["use", list, "--json"], b"").text();
        let [occupied, all] = ["occupied", "of"].map(|name| figure(&json, name));
        let modules = u64::from(depot_host::read(&sheet).unwrap().modules);
        let end = depot_host::earliest_end(&sheet, &mut vec![0; 1 << 20]).unwrap();
        assert_eq!(all, modules * u64::from(end), "{list}");
        assert_eq!(1000 * occupied, u64::from(used.per_mille) * all + u64::from(used.remainder), "{list}");
        sums = [sums[0] + occupied, sums[1] + all];
    }
    golden("use-mixed-night.txt", &["use", &lists[1]], 0);
    golden("use-mixed-night.json", &["use", &lists[1], "--json"], 0);
    let [a, b, c, d] = lists.each_ref().map(String::as_str);
    golden("use-several.txt", &["use", a, b, c, d], 0);
    golden("use-several.json", &["use", a, b, c, d, "--json"], 0);
    golden("use-several.raw", &["use", a, b, c, d, "--raw"], 0);
    let total = depot(&["use", a, b, c, d, "--json"], b"").text();
    let total = total.split("\"total\": ").nth(1).expect("a total");
    assert_eq!(["occupied", "of"].map(|name| figure(total, name)), sums);
    let [per_mille, remainder] = ["per_mille", "remainder"].map(|name| figure(total, name));
    assert!(1000 * sums[0] == per_mille * sums[1] + remainder && remainder < sums[1]);
}

/// A list without jobs has no share, and counts for nothing in a total; a share below a thousandth is shown too.
#[test]
fn use_of_nothing_and_of_little() {
    let none = file("none.csv", b"cabinet,64\nlabel,modules,minutes,after,departure\n");
    let little = file("little.csv", b"cabinet,64\nlabel,modules,minutes,after,departure,arrival\nA,1,1,,0,1440\n");
    let refused = depot(&["use", &none, "--json"], b"");
    assert_eq!((refused.status, refused.text().as_str()), (1, "{\"refused\": 23, \"why\": \"there are no jobs\"}\n"));
    assert!(depot(&["use", &none], b"").errors.contains(": refused 23: there are no jobs\n"));
    assert_eq!(
        depot(&["use", &little], b"").text(),
        "0.0 % of the cabinet was charging (0 per mille, remainder 1,000): 1 of 92,224 module-minutes.\n"
    );
    let several = depot(&["use", &little, &none, &little], b"");
    assert_eq!((several.status, several.text().lines().count()), (1, 5), "a head, three lists and a total");
    assert!(several.text().contains("refused 23\n") && several.errors.contains("none.csv: refused 23"));
    let total = several.text().lines().last().unwrap().split_whitespace().map(String::from).collect::<Vec<_>>();
    assert_eq!(total, ["total", "0.0", "%", "0", "2,000", "2", "184,448"]);
    assert_eq!(depot(&["use", &none, &little, "--raw"], b"").text(), "refused 23\n0 1000\n");
    let all_refused = depot(&["use", &none, &none], b"");
    assert_eq!((all_refused.status, all_refused.text().lines().count()), (1, 3), "no total of nothing");
    assert_eq!(depot(&["use", "--raw"], b"").status, 2);
}

/// A list with waits that others imply, and a departure for which the plan's start is too late already.
const WAITS: &str = "cabinet,8
start,21:00
label,modules,minutes,after,departure
A301,4,120,,23:30
A302,4,90,A301,00:10
C133,2,60,A301 A302,23:20
N 417 B,2,45,A301 A302 #2,05:30
C133,2,30,#2 A302,05:30
";

/// Which bus may wait, in every form: as the library answers, and beside the plan's starts.
#[test]
fn slack() {
    for name in ["small-depot", "mixed-night", "on-the-road", "contactors"] {
        let list = format!("examples/{name}.csv");
        golden(&format!("slack-{name}.txt"), &["slack", &list], 0);
        for order in [&[][..], &["--by-line"]] {
            let raw = depot(&[&["slack", &list, "--raw"], order].concat(), b"").text();
            let planned = depot(&[&["plan", &list, "--json"], order].concat(), b"").text();
            let starts: Vec<&str> = planned.split("\"start\": ").skip(1).filter_map(|rest| rest.split(',').next()).collect();
            let in_lines: Vec<&str> = raw.lines().filter_map(|line| line.split(' ').next()).collect();
            assert_eq!(in_lines, starts, "the plan's starts");
        }
    }
    golden("slack-mixed-night.json", &["slack", "examples/mixed-night.csv", "--json"], 0);
    let list = file("waits.csv", WAITS.as_bytes());
    golden("slack-waits.txt", &["slack", &list], 0);
    golden("slack-waits.json", &["slack", &list, "--json"], 0);
    golden("slack-waits.raw", &["slack", &list, "--raw", "--memory", "0"], 0);
    let sheet = depot(&["sheet", &list, "-o", "-"], b"").output;
    same("host/tests/golden/slack-no-start.txt", &depot(&["slack", "-"], &sheet).output);
    let none = depot(&["slack", "-"], &[0, 0, 0, 0, 0, 0, 1, 0, 0, 0]).text();
    assert_eq!(none, "-: 0 jobs on 1 module: no bus is waiting.\n");
    assert_eq!(depot(&["slack", &list, "--raw", "--json"], b"").status, 2);
}

/// The cells that 'depot slack' shortens leave the same plan and the same slack, and nothing is left to shorten.
#[test]
fn shorter_cells_change_nothing() {
    let shorter =
        WAITS.replace("A301 A302 #2,05:30", "#2,05:30").replace("A301 A302,23:20", "A302,23:20").replace("#2 A302", "#2");
    let (long, short) = (file("long-cells.csv", WAITS.as_bytes()), file("short-cells.csv", shorter.as_bytes()));
    let plan = |list: &str| depot(&["plan", list, "--raw"], b"").text();
    assert_eq!(plan(&long), plan(&short));
    let raw = |list: &str| depot(&["slack", list, "--raw"], b"").text();
    let figures = |line: &str| line.split(' ').take(3).map(str::to_string).collect::<Vec<_>>();
    assert_eq!(raw(&long).lines().map(figures).collect::<Vec<_>>(), raw(&short).lines().map(figures).collect::<Vec<_>>());
    let implied = |text: String| text.lines().filter(|line| line.split(' ').nth(3) != Some("00000000")).count();
    assert_eq!((implied(raw(&long)), implied(raw(&short))), (3, 0));
    assert!(!depot(&["slack", &short], b"").text().contains("Not needed"));
}

/// The night's work by the clock, and the plan for a spreadsheet, which is a list with the same plan.
#[test]
fn work_lists_and_spreadsheets() {
    for name in ["mixed-night", "on-the-road", "contactors"] {
        let list = format!("examples/{name}.csv");
        golden(&format!("work-{name}.txt"), &["plan", &list, "--work"], 0);
        golden(&format!("plan-{name}.csv"), &["plan", &list, "--csv", "-"], 0);
        let again = file("again.csv", &depot(&["plan", &list, "--csv", "-"], b"").output);
        let planned = depot(&["plan", &again, "--json"], b"");
        assert_eq!(planned.output, depot(&["plan", &list, "--json"], b"").output);
        assert_eq!(planned.errors, format!("{again}: passed over the columns start, end, on, slack, lateness\n"));
    }
    let sheet = depot(&["sheet", "examples/small-depot.csv", "-o", "-"], b"").output;
    let work = depot(&["plan", "-", "--work"], &sheet).text();
    assert!(work.contains("0:00       0  plug B11 on modules 0-3, B12 on modules 4-7\n") && !work.contains("+1"), "{work}");
    let none = depot(&["plan", "-", "--work"], &[0, 0, 0, 0, 0, 0, 1, 0, 0, 0]);
    assert_eq!((none.status, none.text().lines().count()), (0, 3));
    assert_eq!(depot(&["plan", "-", "--work", "--raw"], &sheet).status, 2);
}

/// The depot's name and the date stand over the plan in every form; past midnight the next date too, and `+1` is that date.
#[test]
fn depots_and_dates() {
    let list = "examples/mixed-night.csv";
    let given = ["--depot", "Nord & Süd <2>", "--date", "2026-12-31"];
    let with = |words: &[&str]| depot(&[words, &given].concat(), b"").text();
    let words = "Nord & Süd <2>, Thu 2026-12-31 to Fri 2027-01-01";
    let marked = "Nord &amp; Süd &lt;2&gt;, Thu 2026-12-31 to Fri 2027-01-01";
    for form in [&["plan", list][..], &["plan", list, "--work"], &["run", list]] {
        let plain = depot(form, b"").text();
        let said = with(form);
        let (first, rest) = said.split_once('\n').unwrap();
        assert_eq!(
            (first, rest.replace("+1 is Fri 2027-01-01.", "+1 is the day after the start's.")),
            (words, plain),
            "{form:?}"
        );
        assert_eq!(form[0] == "plan", said.contains("+1 is Fri 2027-01-01."));
    }
    assert!(
        with(&["plan", list, "--json"]).starts_with("{\"depot\": \"Nord & Süd <2>\", \"date\": \"2026-12-31\", \"end\": 480, ")
    );
    assert!(
        with(&["run", list, "--json"]).starts_with("{\"depot\": \"Nord & Süd <2>\", \"date\": \"2026-12-31\", \"limit_kw\": ")
    );
    assert_eq!(with(&["plan", list, "--raw"]), depot(&["plan", list, "--raw"], b"").text());
    let csv = with(&["plan", list, "--csv", "-"]);
    assert_eq!(csv, format!("# {words}\n{}", depot(&["plan", list, "--csv", "-"], b"").text()));
    let again = depot(&["plan", "-", "--json"], csv.as_bytes());
    assert_eq!((again.status, again.text()), (0, depot(&["plan", list, "--json"], b"").text()));
    for (form, named) in [
        (&["plan", list, "--svg", "-"][..], format!(">{marked}, mixed-night.csv</text>")),
        (&["plan", list, "--html", "-"], format!("<h2>{marked}, mixed-night.csv: charging plan</h2>")),
        (&["plan", list, "--wall", "-"], "<h1>Nord &amp; Süd &lt;2&gt;</h1>\n<p>Thu 2026-12-31 to Fri 2027-01-01, ".into()),
        (&["run", list, "--svg", "-"], format!(">{marked}, mixed-night.csv: the night on the feeder</text>")),
        (&["run", list, "--html", "-"], format!("<title>{marked}, mixed-night.csv: the night on the feeder</title>")),
    ] {
        let drawn = with(form);
        assert!(drawn.contains(&named) && !drawn.contains("<2>"), "{form:?}: {drawn}");
    }
    let short = file("short.csv", b"cabinet,2\nstart,21:00\nlabel,modules,minutes,departure\nA,1,30,23:00\n");
    assert!(depot(&["plan", &short, "--date", "2026-11-17"], b"").text().starts_with("Tue 2026-11-17\nshort.csv: 1 job "));
    let no_start = file("no-start.csv", b"cabinet,2\nlabel,modules,minutes,departure\nA,1,1440,2880\nB,2,60,9\n");
    assert!(depot(&["plan", &no_start, "--date", "2026-11-17"], b"").text().starts_with("Tue 2026-11-17\nno-start.csv: 2 jobs "));
}

/// The page for the wall: with a script that goes by the browser's clock, or as at a time.
#[test]
fn walls() {
    golden("wall-mixed-night.html", &["plan", "examples/mixed-night.csv", "--wall", "-"], 0);
    let road = "examples/on-the-road.csv";
    let asked = ["plan", road, "--wall", "-", "--now", "23:21", "--depot", "North depot", "--date", "2026-11-17"];
    golden("wall-on-the-road.html", &asked, 0);
    let page = |list: &str, words: &[&str]| depot(&[&["plan", list, "--wall", "-"], words].concat(), b"").text();
    let shown = |page: &str, sign: &str| {
        let lines: Vec<String> =
            page.lines().filter(|line| line.starts_with(sign) && !line.contains(" hidden")).map(String::from).collect();
        lines
    };
    let labels = |lines: &[String]| -> Vec<String> {
        lines.iter().map(|line| line.split("<b>").nth(1).unwrap().split("</b>").next().unwrap().to_string()).collect()
    };
    let mixed = "examples/mixed-night.csv";
    // at each minute those are on charge whose job the table has then, and a turn stays for five minutes
    let json = depot(&["plan", mixed, "--json"], b"").text();
    let figure = |job: &str, name: &str| -> u32 {
        job.split(&format!("\"{name}\": ")).nth(1).unwrap().split([',', '}']).next().unwrap().parse().unwrap()
    };
    let jobs: Vec<(String, u32, u32)> = json
        .split("{\"job\": ")
        .skip(1)
        .map(|job| {
            let label = job.split("\"label\": \"").nth(1).unwrap().split('"').next().unwrap().to_string();
            (label, figure(job, "start"), figure(job, "end"))
        })
        .collect();
    for (time, minute) in [("20:15", 0), ("21:00", 45), ("22:44", 149), ("00:35", 260), ("04:14+1", 479), ("04:20", 485)] {
        let page = page(mixed, &["--now", time]);
        let mut expected: Vec<String> =
            jobs.iter().filter(|(_, start, end)| (*start..*end).contains(&minute)).map(|(label, ..)| label.clone()).collect();
        let mut found = labels(&shown(&page, "<li data-from="));
        expected.sort();
        found.sort();
        assert_eq!(found, expected, "{time}");
        let next = jobs.iter().filter(|(_, start, _)| *start > minute).count();
        assert_eq!(shown(&page, "<li data-start=").len(), next.min(3), "{time}");
        let turns = shown(&page, "<li data-at=");
        assert!(turns.iter().all(|line| line.split('"').nth(1).unwrap().parse::<u32>().unwrap() + 5 > minute), "{time}");
        assert_eq!(
            turns.iter().filter(|line| line.contains("<small>now</small>")).count(),
            usize::from([0, 45, 260, 479].contains(&minute))
        );
        assert_eq!((page.contains("<script"), page.contains("id=\"over\" class=\"said\">")), (false, minute == 485), "{time}");
    }
    let early = page(mixed, &["--now", "19:50"]);
    assert!(
        early.contains("<p id=\"before\" class=\"said\">The plan starts at 20:15.</p>")
            && early.contains("<small>in 25 min</small>")
    );
    assert!(early.contains("<time id=\"clock\">19:50</time>"));
    // without a date the script takes a time of day; with one, milliseconds of that day; none where the day cannot be told
    assert!(page(mixed, &[]).contains("var plan = {start: 1215, end: 480, day: null, "));
    assert!(page(mixed, &["--date", "1970-01-02"]).contains("var plan = {start: 1215, end: 480, day: 86400000, "));
    let long = file("long.csv", b"cabinet,1\nstart,20:00\nlabel,modules,minutes,departure\nA,1,1440,1\n<b>,1,9,2880\n");
    let standing = page(&long, &[]);
    assert!(!standing.contains("<script") && standing.contains("20:00+1") && standing.contains("&lt;b&gt;"), "{standing}");
    assert!(page(&long, &["--date", "2026-11-17"]).contains("<script"));
    let sheet = depot(&["sheet", mixed, "-o", "-"], b"").output;
    let bare = depot(&["plan", "-", "--wall", "-", "--now", "46"], &sheet).text();
    assert!(!bare.contains("<script") && bare.contains("<time id=\"clock\">0:46</time>"), "{bare}");
    for (minute, clock) in [("1400", "23:20"), ("4294967295", "71582788:15")] {
        let over = depot(&["plan", "-", "--wall", "-", "--now", minute], &sheet).text();
        assert!(
            over.contains(&format!("<time id=\"clock\">{clock}</time>")) && over.contains("id=\"over\" class=\"said\">"),
            "{over}"
        );
    }
    assert!(page(mixed, &["--now", "20:15+99"]).contains("<time id=\"clock\">20:15</time>"));
    let none = depot(&["plan", "-", "--wall", "-"], &[0, 0, 0, 0, 0, 0, 1, 0, 0, 0]);
    assert_eq!((none.status, none.text().matches(">nobody</li>").count()), (0, 2));
    for outside in ["http:", "https:", "src=", "href=", "@import", "NaN", "inf"] {
        assert!(!page(mixed, &[]).contains(outside), "the page has {outside}");
    }
}

/// A file that is standard output is all that goes there.
#[test]
fn files_to_standard_output() {
    let list = "examples/small-depot.csv";
    for (verb, option) in
        [("plan", "--svg"), ("plan", "--html"), ("plan", "--sheet"), ("plan", "--card"), ("run", "--svg"), ("run", "--html")]
    {
        let target = file("one.out", b"");
        assert_eq!(depot(&[verb, list, option, &target], b"").status, 0);
        let ran = depot(&[verb, list, option, "-"], b"");
        assert_eq!((ran.status, ran.errors.as_str()), (0, ""));
        assert_eq!(ran.output, fs::read(&target).unwrap(), "{verb} {option} -");
    }
}

/// Nights of the examples beside a greedy neighbour, and beside a workshop that has a script: every call of the plan is granted.
#[test]
fn nights() {
    for name in ["small-depot", "mixed-night", "on-the-road", "contactors"] {
        let list = format!("examples/{name}.csv");
        golden(&format!("run-{name}.txt"), &["run", &list], 0);
        for seed in ["2", "3", "4"] {
            let ran = depot(&["run", &list, "--seed", seed, "--size", "12.5"], b"");
            assert_eq!((ran.status, ran.errors.as_str()), (0, ""));
            assert!(ran.text().contains("Every call of the plan was granted: "), "{name}");
            assert!(ran.text().contains(" was never passed; "), "{name}");
        }
    }
    golden("run-small-depot.json", &["run", "examples/small-depot.csv", "--json"], 0);
    golden("run-script.txt", &["run", "examples/small-depot.csv", "--script", NIGHT], 0);
    golden("run-script.json", &["run", "examples/small-depot.csv", "--script", NIGHT, "--json"], 0);
    let [svg, html] = ["svg", "html"].map(|kind| file(&format!("night.{kind}"), b""));
    let ran = depot(&["run", "examples/small-depot.csv", "--script", NIGHT, "--svg", &svg, "--html", &html], b"");
    assert_eq!((ran.status, ran.errors.as_str()), (0, ""));
    same("examples/workshop-night.svg", &fs::read(&svg).unwrap());
    let page = fs::read_to_string(&html).unwrap();
    same("host/tests/golden/run-script.html", page.as_bytes());
    for outside in ["http:", "https:", "src=", "href=", "<script", "@import", "NaN", "inf"] {
        assert!(!page.replace("http://www.w3.org/2000/svg", "").contains(outside), "the page has {outside}");
    }
    let empty = depot(&["run", "-"], &[0, 0, 0, 0, 0, 0, 1, 0, 0, 0]);
    assert_eq!(empty.status, 0);
    assert!(empty.text().contains("Every call of the plan was granted: 0 claims and 0 hand-backs."));
}

/// A controller that breaks a condition: its plan comes to a halt, or goes on later. The limit holds all the same.
#[test]
fn disturbed_nights() {
    let run = |script: &str| {
        let script = file("night.desk", script.as_bytes());
        depot(&["run", "examples/small-depot.csv", "--by-line", "--script", &script], b"")
    };
    // the yard's own claim: later there is no room for a claim of the plan
    let own = run("open 360 yard=8x30/360 workshop=0/360\n10 claim yard 60\n20 claim workshop 60\n121 claim workshop 30\n");
    same("host/tests/golden/run-halted.txt", &own.output);
    assert_eq!((own.status, own.errors.as_str()), (1, ""));
    // no share any more: a minute of the plan is refused until the workshop hands back
    let later = run("open 400 yard=8x30/400 workshop=0/400\n94 change 400 yard=0/400 workshop=0/400\n95 claim workshop 160\n\
                     121 claim workshop 30\n231 claim workshop 90\n250 back workshop 120\n");
    same("host/tests/golden/run-later.txt", &later.output);
    assert_eq!((later.status, later.errors.as_str()), (1, ""));
    for ran in [own, later] {
        assert!(ran.text().contains(" was never passed; "));
    }
}

#[test]
fn nights_that_do_not_begin() {
    let list = "examples/small-depot.csv";
    for (words, number) in [
        (vec!["--size", "0"], 24),
        (vec!["--size", "1000.1"], 24),
        (vec!["--limit", "239.9"], 25),
        (vec!["--controller", "neighbour"], 25),
        (vec!["--controller", "2"], 14),
        (vec!["--limit", "0"], 12),
    ] {
        let words = [vec!["run", list], words].concat();
        let ran = depot(&words, b"");
        assert_eq!((ran.status, ran.output.len()), (1, 0), "{words:?}");
        assert!(ran.errors.starts_with(&format!("{list}: refused {number}: ")), "{}", ran.errors);
        let json = depot(&[&words[..], &["--json"]].concat(), b"");
        assert_eq!((json.status, json.errors.as_str()), (1, ""));
        assert!(json.text().starts_with(&format!("{{\"refused\": {number}, ")));
    }
    let scripts =
        ["10 look", "claim yard 1", "10 claim nobody 1", "25:00 claim yard 1", "1 claim yard 1\nopen 500 1/1 1/1", "10"];
    for script in scripts {
        let ran = depot(&["run", list, "--script", &file("wrong.desk", script.as_bytes())], b"");
        assert_eq!((ran.status, ran.output.len()), (2, 0), "{script}");
        assert!(ran.errors.contains("wrong.desk, line ") && ran.errors.contains("; allowed: "), "{}", ran.errors);
    }
    for words in
        [&["--seed", "2", "--script", NIGHT][..], &["--limit", "500", "--script", NIGHT], &["--seed", "x"], &["--size", "1x"]]
    {
        let ran = depot(&[&["run", list], words].concat(), b"");
        assert_eq!((ran.status, ran.output.len()), (2, 0), "{words:?}");
    }
}

/// How large the search will be, in every form; refused as planning refuses, and with no start asked for.
#[test]
fn job_sets() {
    for name in EXAMPLES {
        let list = format!("examples/{name}.csv");
        golden(&format!("sets-{name}.txt"), &["sets", &list], 0);
        golden(&format!("sets-{name}.json"), &["sets", &list, "--json"], 0);
        let sheet = file("of-list.sheet", b"");
        assert_eq!(depot(&["sheet", &list, "-o", &sheet], b"").status, 0);
        let counted = depot_host::sets(&fs::read(&sheet).unwrap()).unwrap();
        assert_eq!(depot(&["sets", &list, "--raw"], b"").text(), format!("{counted}\n"));
    }
    let wide = [65, 1, 2, 1, 0, 0, 0, 0, 0, 0, 0, 0, 0, 1, 0, 0, 0, 1, 0, 1, 0, 0, 0];
    for verb in ["sets", "slack", "end", "use", "plan"] {
        let raw = depot(&[verb, "-", "--raw"], &wide);
        assert_eq!((raw.status, raw.text().as_str()), (1, "refused 8\n"));
        assert_eq!(depot(&[verb, "-", "--json"], &wide).status, 1);
        assert_eq!(depot(&[verb, "-"], &wide).status, 1);
    }
    let both = depot(&["sets", "examples/small-depot.csv", "--raw", "--json"], b"");
    assert_eq!((both.status, both.output.len()), (2, 0));
}

/// A search that takes longer than a second says first what the list is in for. Nobody waits for its end.
#[test]
fn a_long_search_says_what_it_is_in_for() {
    let figures = [
        (9, 72),
        (9, 76),
        (3, 56),
        (7, 85),
        (6, 61),
        (6, 68),
        (7, 50),
        (7, 40),
        (5, 40),
        (9, 35),
        (7, 55),
        (7, 41),
        (5, 35),
        (8, 32),
        (9, 65),
        (6, 94),
        (3, 68),
        (6, 63),
        (7, 49),
        (7, 84),
    ];
    let rows: String = figures.iter().map(|(modules, minutes)| format!("B,{modules},{minutes},,600\n")).collect();
    let list = file("long.csv", format!("cabinet,16\nlabel,modules,minutes,after,departure\n{rows}").as_bytes());
    let mut child = Command::new(env!("CARGO_BIN_EXE_depot"))
        .args(["plan", &list])
        .stdout(Stdio::null())
        .stderr(Stdio::piped())
        .spawn()
        .expect("the program starts");
    let mut said = String::new();
    BufReader::new(child.stderr.take().expect("a piped stderr")).read_line(&mut said).expect("a line");
    child.kill().expect("it still searches");
    child.wait().expect("it ends");
    let sets = String::from_utf8(depot(&["sets", &list], b"").output).expect("text").replace('\n', " ");
    assert_eq!(said.trim_end(), format!("a long search: {}", sets.trim_end()));
}

/// A sheet without jobs, the longest sheet and labels full of markup are drawn too.
#[test]
fn pictures_of_edges() {
    let longest = format!("{}\n", "~~~~~~~~~~~~~~~~,64,1440,,2880\n".repeat(20));
    let header = "cabinet,64\nlabel,modules,minutes,after,departure,arrival\n";
    let markup = "\"<b>&\"\"'x'\",1,1,,0\n</title>,1,1,,0\n";
    let arriving = longest.replace(",2880", ",2880,1440");
    let resting = format!("changeover,30\n{header}");
    for (name, header, rows) in [
        ("none", header, ""),
        ("longest", header, longest.as_str()),
        ("markup", header, markup),
        ("arriving", header, &arriving),
        ("none", &resting, ""),
        ("resting", &resting, &longest),
        ("resting and arriving", &resting, &arriving),
    ] {
        let list = file(&format!("{name}.csv"), format!("{header}{rows}").as_bytes());
        let [svg, html] = ["svg", "html"].map(|kind| file(&format!("{name}.{kind}"), b""));
        let ran = depot(&["plan", &list, "--svg", &svg, "--html", &html], b"");
        assert!(ran.status == 0 && faults(&ran).is_empty(), "{name}: {}", ran.errors);
        for drawn in [svg, html] {
            let text = fs::read_to_string(drawn).unwrap();
            assert!(text.contains("</svg>") && !text.contains("<b>") && !text.contains("NaN") && !text.contains("inf"));
            assert_eq!(text.matches("</title>").count(), text.matches("<title>").count());
        }
    }
}

#[test]
fn raw_is_what_the_printing_program_prints() {
    let printed = fs::read_to_string(top().join("host/tests/golden/printed.txt")).unwrap();
    let mut cases = 0;
    for case in printed.split("case ").skip(1) {
        let mut lines = case.splitn(3, '\n');
        let (name, sheet, expected) = (lines.next().unwrap(), lines.next().unwrap(), lines.next().unwrap());
        let sheet = sheet.strip_prefix("sheet ").unwrap();
        let bytes: Vec<u8> = (0..sheet.len()).step_by(2).map(|i| u8::from_str_radix(&sheet[i..i + 2], 16).unwrap()).collect();
        let ran = depot(&["plan", "-", "--raw"], &bytes);
        assert_eq!(ran.text(), expected, "{name}");
        assert_eq!(ran.status, i32::from(expected.starts_with("refused")), "{name}");
        assert!(faults(&ran).is_empty(), "{name}: {}", ran.errors);
        cases += 1;
    }
    assert!(cases >= 25, "{cases} cases");
    let program = top().join("crates/print_plan/out/print_plan");
    if program.is_file() {
        as_the_program_says(&program);
    }
}

fn as_the_program_says(program: &Path) {
    let mut random = Random::new(12);
    for turn in 0..120 {
        let sheet = sheets::good(&mut random);
        let check = sheets::CHECKS[turn / 2 % sheets::CHECKS.len()];
        let bytes = if turn % 2 == 0 { sheet.bytes() } else { sheets::damaged(&mut random, sheet, &[check]) };
        let said = run(program, &[], &bytes);
        assert_eq!(depot(&["plan", "-", "--raw"], &bytes).output, said.output, "sheet {bytes:02x?}");
    }
}

#[test]
fn sheets_and_lists() {
    for name in EXAMPLES {
        let list = format!("examples/{name}.csv");
        let sheet = file(&format!("{name}.sheet"), b"");
        assert_eq!(depot(&["sheet", &list, "-o", &sheet], b"").status, 0);
        golden(&format!("list-{name}.csv"), &["list", &sheet], 0);
    }
    let sheet = file("clock.sheet", b"");
    assert_eq!(depot(&["sheet", "examples/mixed-night.csv", "-o", &sheet], b"").status, 0);
    golden("list-start.csv", &["list", &sheet, "--start", "20:15"], 0);
    golden("list.json", &["list", &sheet, "--json"], 0);
    let road = file("road.sheet", b"");
    assert_eq!(depot(&["sheet", "examples/on-the-road.csv", "-o", &road], b"").status, 0);
    golden("list-arrivals.csv", &["list", &road, "--start", "19:30"], 0);
    let resting = file("resting.sheet", b"");
    assert_eq!(depot(&["sheet", "examples/contactors.csv", "-o", &resting], b"").status, 0);
    golden("list-changeover.csv", &["list", &resting, "--start", "20:45"], 0);
    golden("list-changeover.json", &["list", &resting, "--json"], 0);
    let to_output = depot(&["sheet", "examples/mixed-night.csv", "-o", "-"], b"");
    assert_eq!(to_output.output, fs::read(&sheet).unwrap());
}

/// A sheet becomes a list, and the list the same sheet again, whatever its labels, with minutes and with times of day.
#[test]
fn every_sheet_comes_back() {
    let mut random = Random::new(5);
    let list = file("back.csv", b"");
    for turn in 0..150 {
        let mut sheet = sheets::of_size(&mut random, turn % 21);
        for (place, byte) in sheet.labels.iter_mut().enumerate() {
            *byte = if place % 2 == 0 { random.pick(b"#\",;0123'") } else { *byte };
        }
        if turn % 5 == 4 {
            // labels that name several jobs, or look like numbers of jobs
            let label = random.pick(&[*b"B7", *b"#1", *b"12"]);
            sheet.jobs.iter_mut().for_each(|job| job.label_len = 2);
            sheet.labels = label.repeat(sheet.jobs.len());
            sheet.offset = sheet.labels.len() as u32;
        }
        let bytes = sheet.bytes();
        let words =
            if turn % 3 == 0 { vec!["list", "-", "-o", &list, "--start", "23:10"] } else { vec!["list", "-", "-o", &list] };
        let listed = depot(&words, &bytes);
        assert_eq!((listed.status, listed.errors.as_str()), (0, ""), "{bytes:02x?}");
        let back = depot(&["sheet", &list, "-o", "-"], b"");
        assert_eq!((back.status, back.errors.as_str()), (0, ""), "{}", fs::read_to_string(&list).unwrap());
        assert_eq!(back.output, bytes, "{}", fs::read_to_string(&list).unwrap());
    }
}

#[test]
fn lists_as_people_write_them() {
    let plain = "cabinet,4\nlabel,modules,minutes,after,departure\nA,1,10,,30\nB,2,20,A,25\n";
    let expected = depot(&["sheet", &file("plain.csv", plain.as_bytes()), "-o", "-"], b"");
    assert_eq!(expected.status, 0, "{}", expected.errors);
    let others = [
        "\u{feff}cabinet,4\r\nlabel,modules,minutes,after,departure\r\nA,1,10,,30\r\nB,2,20,A,25\r\n",
        "# a remark\n\nCabinet , 4,,,\n\nAfter,Departure,Label,Minutes,Modules\n,30,A,10,1\n#0,25,\"B\",20,2\n,,,,\n",
        "cabinet,4\nstart,21:00\nlabel,modules,minutes,after,departure\nA,1,10,,21:30\nB,2,20, A ,21:25",
        "cabinet;4;;;\r\nlabel;modules;minutes;after;departure\r\nA;1;10;;30\r\nB;2;20;A;25\r\n",
        "start,23:50\ncabinet,4\nlabel,modules,minutes,departure,after\nA,1,10,0:20+1\nB,2,20,25,A\n",
    ];
    let late = "cabinet,4\nstart,09:00\nlabel,modules,minutes,after,departure\nA,1,10,,21:30\nB,2,20,A,25\n";
    let words = ["sheet", &file("late.csv", late.as_bytes()), "-o", "-", "--start", "21:00"];
    assert_eq!(depot(&words, b"").output, expected.output);
    for (place, text) in others.iter().enumerate() {
        let ran = depot(&["sheet", &file(&format!("other-{place}.csv"), text.as_bytes()), "-o", "-"], b"");
        assert_eq!((ran.status, ran.errors.as_str()), (0, ""));
        assert_eq!(ran.output, expected.output, "{text}");
    }
}

/// Lists by any name and on standard input, in the codings and with the signs of spreadsheets: every verb takes them, and sheets.
#[test]
fn lists_by_any_name() {
    let plain = "cabinet,4\nstart,20:00\nlabel,modules,minutes,after,departure\nA,1,10,,00:00\nB,2,20,A,04:10\n";
    let sheet = depot(&["sheet", &file("plain.csv", plain.as_bytes()), "-o", "-"], b"").output;
    let tabs = plain.replace(',', "\t");
    let utf_16 = |text: &str| [&[0xFF, 0xFE][..], &text.encode_utf16().flat_map(u16::to_le_bytes).collect::<Vec<u8>>()].concat();
    let windows = [b"# K\xfchler\n", plain.as_bytes()].concat();
    let seconds = plain.replace("00:00", "24:00").replace("04:10", "04:10:00");
    for list in [plain.as_bytes(), tabs.as_bytes(), &utf_16(plain), &utf_16(&tabs), &windows, seconds.as_bytes()] {
        for name in ["-", &file("list.txt", list), &file("list", list), &file("list.csv", list)] {
            let ran = depot(&["sheet", name, "-o", "-"], list);
            assert_eq!((ran.status, ran.errors.as_str()), (0, ""), "{}", String::from_utf8_lossy(list));
            assert_eq!(ran.output, sheet, "{}", String::from_utf8_lossy(list));
        }
    }
    for words in [&["plan"][..], &["end"], &["slack"], &["use"], &["sets"], &["run"], &["size", "--by", "300"], &["list"]] {
        let of = |name: &str, input: &[u8]| depot(&[&words[..1], &[name], &words[1..]].concat(), input);
        let (typed, named) = (of("-", plain.as_bytes()), of(&file("list.txt", plain.as_bytes()), b""));
        assert_eq!((typed.status, named.status), (0, 0), "{words:?}: {}", typed.errors);
        assert_eq!(typed.text().replace("-: ", "list.txt: "), named.text(), "{words:?}");
        assert_eq!(of(&file("sheet.csv", &sheet), b"").status, 0, "a sheet by a list's name");
    }
    assert_eq!(depot(&["list", "-"], plain.as_bytes()).text(), plain.replace("00:00", "00:00+1").replace("04:10", "04:10+1"));
    assert_eq!(depot(&["sheet", "-", "-o", "-"], &sheet).output, sheet);
}

/// What is taken though it may not be meant is said on standard error.
#[test]
fn lists_that_are_worth_a_word() {
    let said = |text: &str| {
        let list = file("word.csv", text.as_bytes());
        let ran = depot(&["plan", &list, "--raw"], b"");
        assert_eq!(ran.status, 0, "{}", ran.errors);
        ran.errors.replace(&list, "LIST")
    };
    let columns = "cabinet;4\nlabel;driver;modules;minutes;;departure;notes\nA;M\u{fc}ller;1;10;x;30;\"a; b\"\nB;;1;10;;30\n";
    assert_eq!(said(columns), "LIST: passed over the columns driver, notes\n");
    assert_eq!(said("cabinet,4\nlabel,modules,minutes,departure,afte\nA,1,10,30,B\n"), "LIST: passed over the column afte\n");
    let past = "cabinet,4\nstart,22:00\nlabel,modules,minutes,departure,arrival\nE1,1,10,21:30,\nE2,1,10,14:00,\nE3,1,10,21:30+1,21:59\n";
    assert_eq!(
        said(past),
        "LIST, line 4: E1 departs at 21:30; with a start at 22:00 that is taken for 21:30+1, 23 h 30 min later\n\
         LIST, line 6: E3 arrives at 21:59; with a start at 22:00 that is taken for 21:59+1, 23 h 59 min later\n"
    );
}

/// Arrivals as minutes, as times of day, as empty cells or in no column at all.
#[test]
fn arrivals_as_people_write_them() {
    let sheet = |text: &str| {
        let ran = depot(&["sheet", &file("arrivals.csv", text.as_bytes()), "-o", "-"], b"");
        assert_eq!((ran.status, ran.errors.as_str()), (0, ""), "{text}");
        ran.output
    };
    let plain = sheet("cabinet,4\nlabel,modules,minutes,departure,arrival\nA,1,10,30,0\nB,2,20,25,45\n");
    for other in [
        "cabinet,4\nlabel,modules,minutes,departure,arrival\nA,1,10,30,\nB,2,20,25,45\n",
        "cabinet,4\nstart,23:30\nlabel,modules,minutes,departure,arrival\nA,1,10,0:00,23:30\nB,2,20,23:55,0:15+1\n",
        "cabinet;4\nstart;23:30\nArrival;label;modules;minutes;departure\n;A;1;10;30\n00:15;B;2;20;25\n",
    ] {
        assert_eq!(sheet(other), plain, "{other}");
    }
    let here = sheet("cabinet,4\nlabel,modules,minutes,departure,arrival\nA,1,10,30\nB,2,20,25\n");
    assert_eq!(sheet("cabinet,4\nlabel,modules,minutes,departure\nA,1,10,30\nB,2,20,25\n"), here);
    assert_ne!(here, plain);
    let last = sheet("cabinet,4\nstart,21:00\nlabel,modules,minutes,departure,arrival\nA,1,10,0,21:00+1\n");
    assert_eq!(last[1 + 10..1 + 12], 1440u16.to_le_bytes());
}

/// A changeover in its line, in any place before the header; without the line it is 0.
#[test]
fn changeovers_as_people_write_them() {
    let sheet = |lines: &str| {
        let list = format!("{lines}label,modules,minutes,departure\nA,1,10,30\nB,2,20,25\n");
        let ran = depot(&["sheet", &file("changeover.csv", list.as_bytes()), "-o", "-"], b"");
        assert_eq!((ran.status, ran.errors.as_str()), (0, ""), "{lines}");
        ran.output
    };
    let plain = sheet("cabinet,4\nchangeover,5\n");
    assert_eq!(plain[plain.len() - 4..], [4, 0, 5, 0]);
    for other in
        ["changeover,5\ncabinet,4\n", "cabinet,4\nstart,21:00\nChangeover, 5 \n", "# a remark\ncabinet,4,,\nchangeover,5,,\n"]
    {
        assert_eq!(sheet(other), plain, "{other}");
    }
    let none = sheet("cabinet,4\n");
    assert_eq!(none, sheet("cabinet,4\nchangeover,0\n"));
    assert_eq!(none[none.len() - 4..], [4, 0, 0, 0]);
    let most = sheet("cabinet,4\nchangeover,30\n");
    assert_eq!(most[most.len() - 4..], [4, 0, 30, 0]);
}

/// Where the changeover is 0 nothing is said of it; where it is not, table, JSON, page and picture have it.
#[test]
fn modules_that_rest() {
    let e1 = "cabinet,2\nlabel,modules,minutes,departure\nA,1,10,30\nB,2,20,25\nC,1,10,30\n";
    let plan = |text: &str| {
        let (list, svg, html) = (file("e1.csv", text.as_bytes()), file("e1.svg", b""), file("e1.html", b""));
        let table = depot(&["plan", &list, "--by-line", "--svg", &svg, "--html", &html], b"").text();
        let json = depot(&["plan", &list, "--by-line", "--json"], b"").text();
        [table, json, fs::read_to_string(svg).unwrap(), fs::read_to_string(html).unwrap()]
    };
    let without = plan(e1);
    assert_eq!(plan(&format!("changeover,0\n{e1}")), without);
    let signs = ["rest", "free", "hand_back", "changeover"];
    assert!(without.iter().all(|text| signs.iter().all(|sign| !text.contains(sign))), "{without:?}");
    let [table, json, svg, html] = plan(&format!("changeover,5\n{e1}"));
    assert!(table.contains("3 jobs on 2 modules with a changeover of 5 minutes. The last is full at minute 35"), "{table}");
    assert!(json.contains("\"cabinet\": 2, \"changeover\": 5, ") && json.contains("\"end\": 10, \"hand_back\": 15, "), "{json}");
    for drawn in [svg, html] {
        // a tail for each of the three bars, and one in the legend
        assert_eq!(drawn.matches("<rect class=\"rest\"").count(), 4);
        assert!(drawn.contains("A: modules 0, 0:00 to 0:10, modules rest until 0:15, departs 0:30"), "{drawn}");
        assert!(drawn.contains(">its modules rest<"));
    }
}

/// A list whose lines make buses late, in the order of departures, and with nobody late at a later end.
#[test]
fn buses_that_need_not_be_late() {
    let late = |words: &[&str]| {
        let said = depot(&[&["plan"], words].concat(), b"").text();
        let end = said.split("full at minute ").nth(1).and_then(|rest| rest.split(',').next()).unwrap().to_string();
        (end, said.lines().nth(1).unwrap().to_string(), said)
    };
    let everybody = "Every bus is full by its departure.";
    for (name, by_line) in
        [("small-depot", "B23 (20 min late)"), ("mixed-night", "S8 (15 min late)"), ("hard-night", "N414 (10 min late)")]
    {
        let list = format!("examples/{name}.csv");
        let (end, said, _) = late(&[&list]);
        assert_eq!(said, everybody, "{name}");
        let (same_end, said, all) = late(&[&list, "--by-line"]);
        assert_eq!((same_end, said), (end, format!("1 bus is full only after its departure: {by_line}.")));
        assert!(all.contains("\nNo plan ends earlier; of those that end alike the order of the lines decides.\n"), "{all}");
    }
    let tight = file("tight.csv", b"cabinet,3\nlabel,modules,minutes,departure\nA,2,30,60\nB,1,90,300\nC,2,30,70\nD,1,30,70\n");
    let (end, said, all) = late(&[&tight]);
    assert_eq!((end.as_str(), said.as_str()), ("90", "1 bus is full only after its departure: D (20 min late)."));
    let later =
        "\nSome bus is late in every plan that ends by then. The first plan in which nobody is late ends at minute 120, 30 min \
                 later: --on-time shows it.\n";
    assert!(all.contains(later), "{all}");
    assert!(depot(&["plan", &tight, "--json"], b"").text().ends_with("\"on_time_end\": 120}\n"));
    let (sheet, card) = (file("tight.sheet", b""), file("tight.card", b""));
    let (end, said, all) = late(&[&tight, "--on-time", "--sheet", &sheet, "--card", &card]);
    assert_eq!((end.as_str(), said.as_str()), ("120", everybody));
    assert!(all.contains("\nNo valid plan in which nobody is late ends earlier. "), "{all}");
    card_is_the_library_s(&fs::read(&sheet).unwrap(), &fs::read(&card).unwrap());
    golden("plan-on-time.txt", &["plan", &tight, "--on-time"], 0);
    golden("slack-on-time.txt", &["slack", &tight, "--on-time"], 0);
    assert_eq!(depot(&["run", &tight, "--on-time"], b"").status, 0);
    let never = file("never.csv", b"cabinet,1\nlabel,modules,minutes,departure\nA,1,60,60\nB,1,60,60\n");
    let (_, _, said) = late(&[&never]);
    assert!(said.contains("\nSome bus is late in every plan, however late it ends. Of those"), "{said}");
    let refused = depot(&["plan", &never, "--on-time"], b"");
    assert_eq!((refused.status, refused.output.len()), (1, 0));
    assert_eq!(refused.errors, format!("{never}: some bus is late in every plan, however late it ends\n"));
    let json = depot(&["plan", &never, "--json"], b"").text();
    assert!(json.ends_with("\"on_time_end\": null}\n"), "{json}");
    let both = depot(&["plan", &never, "--on-time", "--by-line"], b"");
    assert_eq!((both.status, both.output.len()), (2, 0));
}

/// A bus that starts only when another one has arrived, though there is room for it before, is named.
#[test]
fn buses_behind_one_on_the_road() {
    let e1 = "cabinet,2\nlabel,modules,minutes,departure,arrival\nA,1,10,30,25\nB,2,20,25\nC,1,10,30\n";
    let (list, page) = (file("behind.csv", e1.as_bytes()), file("behind.html", b""));
    let said = depot(&["plan", &list, "--by-line", "--html", &page], b"").text();
    let note = "C starts at minute 25, when A arrives, though there is room for it from minute 20 on.";
    assert!(said.contains(note), "{said}");
    assert!(fs::read_to_string(page).unwrap().contains(note));
    let above = e1.replace("A,1,10,30,25\n", "") + "A,1,10,30,25\n";
    let by_line = depot(&["plan", &file("above.csv", above.as_bytes()), "--by-line"], b"").text();
    let by_departure = depot(&["plan", &list], b"").text();
    for said in [by_line, by_departure] {
        let late = "1 bus is full only after its departure: A (5 min late).";
        assert!(said.contains(late) && !said.contains("arrives, though"), "{said}");
    }
}

/// A fleet number with spaces, and how it is named in the column `after`: in double quotes, as a text or a spreadsheet has them.
#[test]
fn fleet_numbers() {
    let sheet = |after: &str| {
        let rows = format!("N 417 B,1,10,,30\nA301,1,10,,30\n\"# 9\",1,10,,30\nB7,2,20,{after},25\n");
        let list = file("fleet.csv", format!("cabinet,4\nlabel,modules,minutes,after,departure\n{rows}").as_bytes());
        let ran = depot(&["sheet", &list, "-o", "-"], b"");
        assert_eq!((ran.status, ran.errors.as_str()), (0, ""), "{after}");
        ran.output
    };
    assert!(sheet("").starts_with(b"N 417 BA301# 9B7"));
    for after in ["\"N 417 B\"", "\"\"\"N 417 B\"\"\""] {
        assert_eq!(sheet(after), sheet("#0"), "{after}");
    }
    for after in ["\"N 417 B\" A301", "A301 \"N 417 B\"", "\"\"\"N 417 B\"\" A301\"", "\"N 417 B\" #1", "\"A301 #0\""] {
        assert_eq!(sheet(after), sheet("#0 #1"), "{after}");
    }
    let raw = depot(&["plan", "-", "--raw"], &sheet("\"N 417 B\" A301"));
    assert_eq!(
        raw.text(),
        "plan 30 4 4\n0 10 -20 0000000000000001 N 417 B\n0 10 -20 0000000000000002 A301\n\
         0 10 -20 0000000000000004 # 9\n10 30 5 0000000000000003 B7\n"
    );
}

#[test]
fn desk() {
    for (name, words) in [("desk.txt", &["desk", SCRIPT][..]), ("desk.json", &["desk", SCRIPT, "--json"])] {
        let ran = depot(words, b"");
        assert_eq!((ran.status, ran.errors.as_str()), (1, "depot: 5 calls were refused; the exit status is 1\n"));
        same(&format!("host/tests/golden/{name}"), &ran.output);
    }
    let script = fs::read(top().join(SCRIPT)).unwrap();
    let typed = depot(&["desk"], &script);
    let shown = depot(&["desk", SCRIPT], b"").text();
    let answers: Vec<&str> = shown.lines().filter(|line| !line.starts_with('>')).collect();
    assert_eq!(typed.text().lines().collect::<Vec<_>>(), answers);
    let calm = depot(&["desk"], b"open 10 4/10 3/10\nclaim 0 6.5\nback 0 6.5\nquit\nclaim 0 99\n");
    assert_eq!((calm.status, calm.text().lines().last()), (0, Some("done: hands back 6.5 kW; controller 0 now holds 0")));
}

/// The picture of page twelve's feared case, and that of edges: no desk, a refused claim beyond all bounds, other limits, eight controllers.
#[test]
fn desk_pictures() {
    const FEARED: &str = "examples/old-reading.desk";
    let target = file("desk.svg", b"");
    let ran = depot(&["desk", FEARED, "--svg", &target], b"");
    assert_eq!((ran.status, ran.output), (1, depot(&["desk", FEARED], b"").output));
    let drawn = fs::read(&target).unwrap();
    same("examples/old-reading.svg", &drawn);
    let alone = depot(&["desk", FEARED, "--svg", "-"], b"");
    assert_eq!((alone.status, alone.output), (1, drawn.clone()));
    let text = String::from_utf8(drawn).unwrap();
    assert_eq!(text.matches("class=\"refused\"").count(), 2, "one refused claim, and its mark in the legend");
    assert!(text.contains("refused 17") && text.contains("limit 480 kW"));
    assert!(text.contains(">may claim: yard 80 kW, workshop 80 kW</text>"), "a look at both, short enough for its letters");

    let eight = "open 40000 1/9 1/9 1/9 1/9 1/9 1/9 1/9 1/9\nclaim 7 40000\nclaim 0 429496729.5\nchange 20 1/9 1/9 1/9 1/9 1/9 1/9 1/9 1/9\n";
    for script in ["", "claim 0 1\n", eight, "open 10 <b>&=4/10 \"=3/10\nclaim 0 7\nback 0 7\nlook\nshow\n"] {
        let picture = depot(&["desk", "--svg", "-"], script.as_bytes()).text();
        assert!(picture.starts_with("<svg ") && picture.ends_with("</svg>\n"), "{script}");
        assert!(!["NaN", "inf", "<b>", "width=\"-"].iter().any(|wrong| picture.contains(wrong)), "{script}: {picture}");
    }
}

/// A desk is not forgotten by mistake, and a mistake is taken back.
#[test]
fn desks_that_are_kept() {
    let said = |script: &str| {
        let ran = depot(&["desk"], script.as_bytes());
        (ran.status, ran.text())
    };
    let open = "open 10 yard=4/10 shop=3/10\n";
    let (status, held) = said(&format!("{open}claim yard 5\n{open}show\n"));
    let refused = "this desk holds power, which would be forgotten: yard 5 kW; allowed: back first, or 'open!' to forget it";
    assert_eq!(status, 2);
    assert!(held.contains(refused) && held.contains("holds 5, assured 4"), "{held}");
    let (status, anew) = said(&format!("{open}claim yard 5\nopen! 20 1/2 3/4\nshow\nback 0 0.1\n"));
    assert!(status == 1 && anew.contains("controller 0") && anew.contains("refused 18"), "{anew}");
    let (status, again) = said(&format!("{open}{open}"));
    assert_eq!((status, again.matches("opened\n").count()), (0, 2), "nothing is held");
    let (status, undone) = said(&format!("{open}claim yard 5\nclaim yard 9\nlook\nundo\nundo\nundo\n"));
    assert_eq!(status, 2, "{undone}");
    let lines = [
        "undone: claim yard 5. Tell whoever acted on it",
        "undone: open 10 yard=4/10 shop=3/10. ",
        "no desk is open\n",
        "nothing to undo",
    ];
    assert!(lines.iter().all(|line| undone.contains(line)), "{undone}");

    let kept = file("kept.desk-bytes", b"");
    let before = said(&format!("{open}claim yard 5\nsave {kept}\nshow\n"));
    let bytes = fs::read(&kept).unwrap();
    assert_eq!(
        (before.0, bytes.len(), &bytes[..8], &bytes[104..]),
        (0, 104 + 10, &[2, 0, 0, 0, 100, 0, 0, 0][..], &b"yard\nshop\n"[..])
    );
    let after = said(&format!("load {kept}\n"));
    let bars = |text: &str| text.lines().filter(|line| line.contains('[')).map(String::from).collect::<Vec<_>>();
    assert_eq!((after.0, bars(&after.1)), (0, bars(&before.1)[3..].to_vec()));
    let firmware_s = file("firmware.desk-bytes", &bytes[..104]);
    assert!(said(&format!("load {firmware_s}\n")).1.contains("controller 1"));
    let twice = said(&format!("load {kept}\nload {kept}\nload! {kept}\n"));
    assert!(
        twice.0 == 2 && twice.1.contains("'load!' to forget it") && twice.1.matches("loaded from ").count() == 2,
        "{}",
        twice.1
    );
    let mut spoilt = bytes.clone();
    spoilt[8] = 200;
    for wrong in [&bytes[..103], &bytes[..109], &spoilt, b""] {
        let no_desk = file("no.desk-bytes", wrong);
        assert!(said(&format!("load {no_desk}\n")).1.contains("is no desk; allowed: "), "{wrong:02x?}");
    }

    let log = file("night.log", b"");
    assert_eq!(said(&format!("{open}log {log}\nclaim yard 5\nclaim yard 9\nclam\n")).0, 2);
    let logged = fs::read_to_string(&log).unwrap();
    assert!(logged.lines().all(|line| line.starts_with("    ") || line.starts_with("20") && line.contains(" UTC ")), "{logged}");
    let entries: Vec<&str> = logged.lines().filter_map(|line| line.split(" UTC ").nth(1)).collect();
    assert_eq!(entries, [&format!("log {log}"), "claim yard 5", "claim yard 9", "clam"]);
    assert!(
        logged.contains("    granted: claims 5 kW")
            && logged.contains("    refused 16: ")
            && logged.contains("did you mean 'claim'?")
    );

    let marked = depot(&["desk", &file("marked.desk", format!("\u{feff}{open}").as_bytes())], b"");
    assert_eq!((marked.status, marked.errors.as_str()), (0, ""));
    let help = depot(&["desk"], b"help\n").text();
    assert!(help.starts_with("Commands:\n  open LIMIT") && !help.contains("usage") && !help.contains("--json"), "{help}");
}

/// Each refusal of the desk, with its sums.
#[test]
fn desk_refusals() {
    let script = b"open 10 4/10\nopen 10 5/4 3/12\nopen 0 0/0 0/0\nopen 40000.1 0/0 0/0\nopen 10 6/10 5/10\nopen 10 4/8 3/10\nclaim 2 1\nlook 7\nclaim 0 0\n\
                   claim 0 8.1\nclaim 0 429496729.5\nclaim 0 8\nclaim 1 3\nclaim 0 5\nclaim 1 6\nback 0 6\nback 0 0\nback 9 1\nclaim 1 7\n\
                   change 10 4/10\nchange 10 4/11 3/10\nchange 10 6/10 5/10\nchange 10 4/4.9 3/10\nchange 8 2/8 6/8\n\
                   change 8 5/8 3/8\nchange 9 1=3/9 0=5/9\nclaim 0 1\nclaim 0 2\n";
    let ran = depot(&["desk"], script);
    assert_eq!((ran.status, ran.errors.as_str()), (1, "depot: 22 calls were refused; the exit status is 1\n"));
    same("host/tests/golden/desk-refusals.txt", &ran.output);
    for number in [11, 12, 13, 14, 15, 16, 17, 18, 21, 22] {
        assert!(ran.text().contains(&format!("refused {number}: ")), "no refusal {number}");
    }
}

#[test]
fn output_that_nobody_reads_is_no_trouble() {
    let pipe = format!("'{}' explain | head -n 1", env!("CARGO_BIN_EXE_depot"));
    let ran = run(Path::new("/bin/sh"), &["-c", &pipe], b"");
    assert_eq!((ran.status, ran.errors.as_str()), (0, ""));
    assert_eq!(ran.text(), " 1  the sheet has fewer than 10 or more than 570 bytes\n");
}
