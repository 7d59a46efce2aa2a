//! What `depot` says of wrong lists, sheets, files and words: where the fault is, what was found and what is allowed.
mod command;

use command::{depot, file};
use depot_host::raw_sheet::Sheet;
use depot_host::{Job, LONGEST_SHEET};

const HEAD: &str = "cabinet,16\nlabel,modules,minutes,after,departure\n";

/// The faults of a list, each without the file's name; `depot sheet` and `depot plan` say the same.
fn faults(text: &[u8]) -> Vec<String> {
    let list = file("faulty.csv", text);
    let ran = depot(&["sheet", &list, "-o", "-"], b"");
    assert_eq!((ran.status, ran.output.as_slice()), (1, &b""[..]), "{}", ran.errors);
    for form in [vec!["plan", &list], vec!["plan", &list, "--raw"], vec!["plan", &list, "--json"]] {
        let planned = depot(&form, b"");
        assert_eq!((planned.status, &planned.errors), (1, &ran.errors));
        assert_eq!(planned.output, b"");
    }
    let name = format!("{list}, ");
    ran.errors.lines().map(|line| line.strip_prefix(&name).unwrap_or(line).to_string()).collect()
}

/// A list whose third line is this one has this fault.
fn row(line: &str, fault: &str) {
    assert_eq!(faults(format!("{HEAD}{line}\n").as_bytes()), [fault], "{line}");
}

#[test]
fn fields() {
    let number = |low, high| format!("a whole number from {low} to {high}");
    for (word, found) in [("0", "'0'"), ("256", "'256'"), ("", "nothing"), ("two", "'two'"), ("-1", "'-1'"), ("1.5", "'1.5'")] {
        row(&format!("A,{word},10,,30"), &format!("line 3, column 2 (modules): found {found}; allowed: {}", number(1, 255)));
    }
    for word in ["0", "1441", "99999999999"] {
        row(&format!("A,1,{word},,30"), &format!("line 3, column 3 (minutes): found '{word}'; allowed: {}", number(1, 1440)));
    }
    for word in ["2881", "x"] {
        row(&format!("A,1,10,,{word}"), &format!("line 3, column 5 (departure): found '{word}'; allowed: {}", number(0, 2880)));
    }
    let before_start = "a minute from 0 to 2880; a time of day, hh:mm, only behind a line 'start,hh:mm'";
    for word in ["05:30", "4.10", "4h10", "1.5"] {
        row(&format!("A,1,10,,{word}"), &format!("line 3, column 5 (departure): found '{word}'; allowed: {before_start}"));
    }
}

#[test]
fn arrivals() {
    let fault = |start: &str, word: &str, allowed: &str| {
        let list = format!("{start}cabinet,16\nlabel,modules,minutes,departure,arrival\nA,1,10,30,{word}\n");
        let line = if start.is_empty() { 3 } else { 4 };
        assert_eq!(faults(list.as_bytes()), [format!("line {line}, column 5 (arrival): found '{word}'; allowed: {allowed}")]);
    };
    for word in ["1441", "x", "-1"] {
        fault("", word, "a whole number from 0 to 1440");
    }
    fault("", "20:30", "a minute from 0 to 1440; a time of day, hh:mm, only behind a line 'start,hh:mm'");
    for word in ["24:01", "5:3", "21:01+1", "20:00+0", "05:30+2", "4.10", "4h10", "x"] {
        let allowed = "a minute from 0 to 1440, or a time hh:mm (hh:mm+1 on the next day) within 24 hours from the start";
        fault("start,21:00\n", word, allowed);
    }
}

#[test]
fn times_of_day() {
    let allowed = "a minute from 0 to 2880, or a time hh:mm (hh:mm+1 on the next day) within 48 hours from the start";
    for word in ["24:01", "5:3", "05:30+3", "20:00+0", "21:01+2", "4.10", "4h10", "04:10:30", "soon"] {
        let list = format!("start,21:00\n{HEAD}A,1,10,,{word}\n");
        let fault = format!("line 4, column 5 (departure): found '{word}'; allowed: {allowed}");
        assert_eq!(faults(list.as_bytes()), [fault]);
    }
    for (word, found) in [("25:00", "'25:00'"), ("", "nothing"), ("21:00,22:00", "'21:00,22:00'")] {
        let fault = format!("line 1, column 2 (start time): found {found}; allowed: a time of day, 00:00 to 23:59");
        assert_eq!(faults(format!("start,{word}\n{HEAD}").as_bytes()), [fault]);
    }
    let twice = "line 2: found a second line 'start'; allowed: one such line";
    assert_eq!(faults(format!("start,21:00\nstart,22:00\n{HEAD}").as_bytes()), [twice]);
}

#[test]
fn labels() {
    row(",1,10,,30", "line 3, column 1 (label): found no label; allowed: 1 to 16 letters, digits, signs or spaces");
    let long = "ABCDEFGHIJKLMNOPQ";
    row(
        &format!("{long},1,10,,30"),
        &format!("line 3, column 1 (label): found '{long}', 17 characters; allowed: 1 to 16 characters"),
    );
    let edges = "a label that neither begins nor ends with a space";
    for label in [" B1", "B1 ", " "] {
        row(&format!("\"{label}\",1,10,,30"), &format!("line 3, column 1 (label): found '{label}'; allowed: {edges}"));
    }
    let plain = "plain letters, digits, signs and spaces (bytes 32 to 126)";
    row("B\t1,1,10,,30", &format!("line 3, column 1 (label): found 'B\\t1' with '\\t' in it; allowed: {plain}"));
    row("Bü1,1,10,,30", &format!("line 3, column 1 (label): found 'Bü1' with 'ü' in it; allowed: {plain}"));
    row("B\u{7f},1,10,,30", &format!("line 3, column 1 (label): found 'B\\u{{7f}}' with '\\u{{7f}}' in it; allowed: {plain}"));
}

#[test]
fn names_in_after() {
    let names = "labels of this list or job numbers, with a space between them";
    row("A,1,10,B,30", &format!("line 3, column 4 (after): found 'B', which is no job's label; allowed: {names}"));
    let hint = format!("{names}; job number 0 is written #0");
    row("A,1,10,0,30", &format!("line 3, column 4 (after): found '0', which is no job's label; allowed: {hint}"));
    row("A,1,10,#1,30", "line 3, column 4 (after): found '#1'; allowed: the job numbers #0 to #0");
    let twice = format!("{HEAD}A,1,10,,30\nA,1,10,,30\nB,1,10,A,30\n");
    let fault = "line 5, column 4 (after): found 'A', the label of 2 jobs; allowed: one of them by its number: #0 or #1";
    assert_eq!(faults(twice.as_bytes()), [fault]);
    let bare = format!("{HEAD}N 417 B,1,10,,30\nA,1,10,N 417 B,30\n");
    let quotes = "\"N 417 B\": a label with a space in it stands in double quotes";
    let fault = format!("line 4, column 4 (after): found 'N 417 B' without double quotes; allowed: {quotes}");
    assert_eq!(faults(bare.as_bytes()), [fault]);
}

/// A picture or a page in a list's place is one fault, not one for each of its lines.
#[test]
fn markup() {
    let fault = "line 1: found '<', as pictures and pages begin; allowed: a list; 'depot plan --help' shows one";
    assert_eq!(faults(b"<svg>\n<text>label,modules</text>\n</svg>\n"), [fault]);
    let ran = depot(&["plan", "examples/small-depot.svg"], b"");
    assert_eq!((ran.status, ran.errors), (1, format!("examples/small-depot.svg, {fault}\n")));
}

#[test]
fn the_cabinet() {
    for (word, found) in [("0", "'0'"), ("65", "'65'"), ("x", "'x'"), ("-3", "'-3'")] {
        let fault = format!("line 1, column 2 (modules of the cabinet): found {found}; allowed: a whole number from 1 to 64");
        let list = format!("cabinet,{word}\nlabel,modules,minutes,departure\n");
        assert_eq!(faults(list.as_bytes()), [fault]);
    }
    let missing =
        "line 1: found no line 'cabinet' with a number of modules before the header; allowed: 'cabinet,N', N from 1 to 64";
    assert_eq!(faults(b"label,modules,minutes,departure\nA,1,10,30\n"), [missing]);
    let twice = "line 2: found a second line 'cabinet'; allowed: a line 'cabinet,N' once, N a whole number from 1 to 64";
    assert_eq!(faults(b"cabinet,4\ncabinet,5\nlabel,modules,minutes,departure\n"), [twice]);
}

#[test]
fn the_changeover() {
    let list = |lines: &str| format!("cabinet,16\n{lines}label,modules,minutes,departure\nA,1,10,30\n");
    for (word, found) in [("31", "'31'"), ("x", "'x'"), ("-3", "'-3'"), ("2.5", "'2.5'"), ("0:05", "'0:05'")] {
        let fault = format!("line 2, column 2 (minutes of the changeover): found {found}; allowed: a whole number from 0 to 30");
        assert_eq!(faults(list(&format!("changeover,{word}\n")).as_bytes()), [fault]);
    }
    let once = "a line 'changeover,C' once, C a whole number from 0 to 30";
    for (line, found) in [("changeover", "nothing"), ("changeover,5,6", "'5,6'")] {
        let fault = format!("line 2, column 2 (minutes of the changeover): found {found}; allowed: {once}");
        assert_eq!(faults(list(&format!("{line}\n")).as_bytes()), [fault]);
    }
    let twice = format!("line 3: found a second line 'changeover'; allowed: {once}");
    assert_eq!(faults(list("changeover,5\nchangeover,0\n").as_bytes()), [twice]);
}

/// Lines that are meant for settings and stand in the wrong place, or have another name: the others are still read.
#[test]
fn settings_out_of_place() {
    let below = |name: &str| format!("found '{name}' below the header; allowed: a line '{name}' above the header");
    let list = b"label;modules;minutes;departure\ncabinet;16\nA;1;10;30\nstart;21:00\nChangeover;5\nB;0;10;30\n";
    let number = "line 6, column 2 (modules): found '0'; allowed: a whole number from 1 to 255";
    let [cabinet, start, changeover] = ["cabinet", "start", "changeover"].map(below);
    let expected = [format!("line 2: {cabinet}"), format!("line 4: {start}"), format!("line 5: {changeover}"), number.into()];
    assert_eq!(faults(list), expected);
    let word = faults(b"Schrank;32;;;\nlabel;modules;minutes;departure\nA;1;10;30\nB;0;10;30\n");
    let allowed = "'cabinet,N', 'changeover,C', 'start,hh:mm' or the header line";
    let number = "line 4, column 2 (modules): found '0'; allowed: a whole number from 1 to 255";
    assert_eq!(word, [&format!("line 1: found 'Schrank;32'; allowed: {allowed}"), number]);
    // with figures behind it, it is a job's label
    let labels = b"cabinet,4\nlabel,modules,minutes,departure\nstart,1,10,30\ncabinet,1,10,30\n";
    assert_eq!(depot(&["sheet", "-", "-o", "-"], labels).status, 0);
}

#[test]
fn columns() {
    let needed =
        "a header line with label, modules, minutes, departure; after where jobs wait for others; arrival where buses are \
                  still on the road";
    for name in ["label", "modules", "minutes", "departure"] {
        let header = ["label", "modules", "minutes", "departure"].into_iter().filter(|other| *other != name);
        let list = format!("cabinet,4\n{}\nA,1,10\n", header.collect::<Vec<_>>().join(","));
        assert_eq!(faults(list.as_bytes()), [format!("line 2: found no column '{name}'; allowed: {needed}")]);
    }
    let twice = faults(b"cabinet,4\nlabel,modules,minutes,departure,Label\n");
    assert_eq!(twice, ["line 2, column 5 (Label): found a column that stands twice; allowed: each column once"]);
    let no_header = faults(b"cabinet,4\nA,1,10,,30\nB,1,10,,30\n");
    let header =
        "line 2: found 'A,1,10,,30'; allowed: a header line before the jobs, as label,modules,minutes,after,departure,arrival";
    assert_eq!(no_header, [header]);
    row("A,1,10,,30,extra", "line 3, column 6 (no column): found 'extra' behind the last column; allowed: 5 fields");
    let quotes = "a field as it is, or all of it in double quotes, with a double quote inside written twice";
    row("A,1,10,\"B,30", &format!("line 3, column 4 (after): found a double quote that nothing closes; allowed: {quotes}"));
    row("\"A\"B,1,10,,30", &format!("line 3, column 1 (label): found text behind a closing double quote; allowed: {quotes}"));
    row(
        "A,1,1\"0,,30",
        &format!(
            "line 3, column 3 (minutes): found a double quote inside a field that does not begin with one; allowed: {quotes}"
        ),
    );
}

#[test]
fn whole_lists() {
    let many = format!("{HEAD}{}", "A,1,10,,30\n".repeat(21));
    assert_eq!(faults(many.as_bytes()), ["line 23: found job 21 of 21; allowed: up to 20 jobs"]);
    let windows = [HEAD.as_bytes(), b"# K\xfchler\nA,1,10,,30\nB\xfc1,1,10,,30\n"].concat();
    let plain = "plain letters, digits, signs and spaces (bytes 32 to 126)";
    assert_eq!(faults(&windows), [format!("line 5, column 1 (label): found 'Bü1' with 'ü' in it; allowed: {plain}")]);
    let header = "found no header line; allowed: a line with the columns label,modules,minutes,after,departure,arrival";
    assert_eq!(faults(b"cabinet,4\n"), [format!("line 1: {header}")]);
    assert_eq!(faults(b"").len(), 2);
    let several = faults(format!("{HEAD}A,0,0,Z,9999\n,1,10,,30\n").as_bytes());
    assert_eq!(several.len(), 5);
    assert!(several[0].starts_with("line 3, column 2") && several[4].starts_with("line 4, column 1"), "{several:?}");
    let endless = faults(format!("{HEAD}{}", ",0,0,,x\n".repeat(20)).as_bytes());
    assert_eq!((endless.len(), endless[20].rsplit(": ").next()), (21, Some("and 60 more")));
}

/// What the library refuses for a job that it does not name, the tool points at.
#[test]
fn over_wide_and_circular() {
    let refused = |rows: &str, number: u32, lines: &[&str]| {
        let list = file("refused.csv", format!("{HEAD}{rows}").as_bytes());
        let ran = depot(&["plan", &list], b"");
        let mut said = ran.errors.lines();
        assert!(said.next().unwrap().starts_with(&format!("{list}: refused {number}: ")), "{}", ran.errors);
        let rest: Vec<&str> = said.collect();
        let last = format!("  'depot explain {number}' says what to do");
        assert_eq!(rest, [lines, &[last.as_str()]].concat());
        assert_eq!((ran.status, ran.text().as_str()), (1, ""));
        assert_eq!(depot(&["plan", &list, "--raw"], b"").text(), format!("refused {number}\n"));
        assert!(depot(&["plan", &list, "--json"], b"").text().starts_with(&format!("{{\"refused\": {number}, ")));
        assert_eq!(depot(&["sheet", &list, "-o", "-"], b"").status, 0);
    };
    refused(
        "A,16,10,,30\nB,17,10,,30\nC,20,10,,30\n",
        8,
        &["  B (line 4) needs 17 modules; the cabinet has 16", "  C (line 5) needs 20 modules; the cabinet has 16"],
    );
    refused("A,4,10,A,30\n", 9, &["  A (line 3) waits for itself"]);
    refused(
        "A,4,10,,30\nB,4,10,A C,30\nC,4,10,D,30\nD,1,10,B,30\n",
        9,
        &["  each waits for the next: B (line 4), C (line 5), D (line 6), B (line 4)"],
    );
    let sheet = Sheet::of(2, vec![Job { modules: 3, minutes: 1, ..Job::default() }]).bytes();
    let ran = depot(&["plan", "-"], &sheet);
    assert_eq!(ran.errors.lines().nth(1), Some("  A (job 0) needs 3 modules; the cabinet has 2"));
}

#[test]
fn sheets_that_do_not_read() {
    for (bytes, number) in [
        (&b"123456789"[..], 1),
        (&[0; LONGEST_SHEET + 1], 1),
        (&[0, 0, 0, 0, 21, 0, 1, 0, 0, 0], 2),
        (&[0; 10], 3),
        (&[1, 0, 0, 0, 0, 0, 1, 0, 31, 0], 19),
        (&[1, 0, 0, 0, 0, 0, 1, 0, 30, 0], 4),
    ] {
        for verb in ["plan", "list"] {
            let ran = depot(&[verb, "-"], bytes);
            assert_eq!((ran.status, ran.text().as_str()), (1, ""));
            assert!(ran.errors.starts_with(&format!("-: refused {number}: ")), "{}", ran.errors);
            assert!(ran.errors.ends_with(&format!("'depot explain {number}' says what to do\n")), "{}", ran.errors);
            let json = depot(&[verb, "-", "--json"], bytes);
            assert_eq!((json.status, json.errors.as_str()), (1, ""));
            assert!(json.text().starts_with(&format!("{{\"refused\": {number}, \"why\": ")));
        }
    }
}

/// A wrong command line: status 2, nothing on standard output, and what to read.
#[test]
fn words() {
    let usage = |words: &[&str], said: &str| {
        let ran = depot(words, b"");
        assert_eq!((ran.status, ran.text().as_str(), ran.errors.as_str()), (2, "", said), "{words:?}");
    };
    usage(&[], "depot: a verb is missing; 'depot --help' names the verbs\n");
    usage(&["paln"], "depot: there is no verb 'paln', perhaps 'plan'; 'depot --help' names the verbs\n");
    usage(&["help", "siz"], "depot: there is no verb 'siz', perhaps 'size'; 'depot --help' names the verbs\n");
    usage(&["charge"], "depot: there is no verb 'charge'; 'depot --help' names the verbs\n");
    usage(&["plan"], "depot plan: a list or a sheet is missing; 'depot plan --help' shows what it takes\n");
    usage(&["plan", "a", "b"], "depot plan: 'b' is one word too many; 'depot plan --help' shows what it takes\n");
    usage(&["plan", "a", "--fast"], "depot plan: there is no option '--fast'; 'depot plan --help' shows what it takes\n");
    let shows = "'depot plan --help' shows what it takes\n";
    usage(&["plan", "a", "--raw=1"], &format!("depot plan: there is no option '--raw=1', perhaps '--raw'; {shows}"));
    usage(&["plan", "a", "--htlm", "b"], &format!("depot plan: there is no option '--htlm', perhaps '--html'; {shows}"));
    usage(&["plan", "a", "--svg"], "depot plan: --svg needs a value; 'depot plan --help' shows what it takes\n");
    usage(
        &["plan", "a", "--raw", "--json"],
        "depot plan: --raw and --json exclude each other; 'depot plan --help' shows what it takes\n",
    );
    usage(
        &["plan", "a", "--start", "25:00"],
        "depot plan: --start: found '25:00'; allowed is a time of day, 00:00 to 23:59; 'depot plan --help' shows what it takes\n",
    );
    for word in ["1T", "99999999M", "17G", "-1"] {
        let allowed = "allowed is 0 to 16G, in bytes or with K, M or G behind the number";
        let said = format!("depot plan: --memory: found '{word}'; {allowed}; 'depot plan --help' shows what it takes\n");
        usage(&["plan", "a", "--memory", word], &said);
    }
    usage(
        &["plan", "a", "--svg", "-", "--html", "-"],
        "depot plan: --svg - and --html - exclude each other; 'depot plan --help' shows what it takes\n",
    );
    usage(
        &["run", "a", "--html=-", "--json"],
        "depot run: --html - and --json exclude each other; 'depot run --help' shows what it takes\n",
    );
    usage(&["pl\u{1b}[A"], "depot: there is no verb 'pl\\u{1b}[A'; 'depot --help' names the verbs\n");
    usage(
        &["plan", "a", "--start", "1:00", "--start", "2:00"],
        "depot plan: --start stands twice; 'depot plan --help' shows what it takes\n",
    );
    for name in ["", "a\u{1b}[1mb", "a\nb", "a\u{202e}b", &"x".repeat(61)] {
        let allowed = "allowed is a name of 1 to 60 characters, none of which is a control character";
        let shown: String =
            name.chars().map(|c| if c.is_control() { c.escape_debug().to_string() } else { c.to_string() }).collect();
        for verb in ["plan", "run"] {
            let said = format!("depot {verb}: --depot: found '{shown}'; {allowed}; 'depot {verb} --help' shows what it takes\n");
            usage(&[verb, "a", "--depot", name], &said);
        }
    }
    for date in ["", "17.11.2026", "2026-02-29", "2026-11-31", "26-11-17"] {
        let allowed = "allowed is a date as 2026-11-17, from 1970 to 9999";
        let said = format!("depot plan: --date: found '{date}'; {allowed}; 'depot plan --help' shows what it takes\n");
        usage(&["plan", "a", "--date", date], &said);
    }
    usage(&["plan", "a", "--now", "20:00"], "depot plan: --now goes with --wall; 'depot plan --help' shows what it takes\n");
    let allowed = "allowed is a time of day, as 22:45, or 00:30+1 for one on the day after the start's";
    let said = format!("depot plan: --now: found '7h'; {allowed}; 'depot plan --help' shows what it takes\n");
    usage(&["plan", "examples/small-depot.csv", "--wall", "-", "--now", "7h"], &said);
    usage(&["sheet", "a"], "depot sheet: -o FILE is missing; 'depot sheet --help' shows what it takes\n");
    usage(&["sheet"], "depot sheet: a list is missing; 'depot sheet --help' shows what it takes\n");
    usage(&["list"], "depot list: a sheet is missing; 'depot list --help' shows what it takes\n");
    for number in ["0", "99", "x", "-1x"] {
        assert_eq!(depot(&["explain", number], b"").status, 2);
    }
}

#[test]
fn files() {
    let missing = "cannot be read: there is no such file or folder\n";
    for words in [&["plan", "no/such.csv"][..], &["plan", "no/such.sheet"], &["list", "no/such.sheet"], &["desk", "no/such.desk"]]
    {
        let ran = depot(words, b"");
        assert_eq!((ran.status, ran.errors), (2, format!("depot: '{}' {missing}", words[1])));
    }
    assert_eq!(depot(&["plan", "examples"], b"").errors, "depot: 'examples' cannot be read: it is a folder\n");
    let unwritable = depot(&["plan", "examples/small-depot.csv", "--svg", "no/such/folder.svg"], b"");
    assert_eq!((unwritable.status, unwritable.text().as_str()), (2, ""));
    assert_eq!(unwritable.errors, "depot: 'no/such/folder.svg' cannot be written: there is no such file or folder\n");
}

/// Keys that a terminal sends as control bytes are shown, not sent back.
#[test]
fn control_bytes() {
    let ran = depot(&["desk"], b"open 10 4/10 3/10\nclaim\t0 1\n\x1b[Aclaim 0 1\x07\n");
    let shown = "found '\\u{1b}[Aclaim 0 1\\u{7}'; allowed: a command in plain text, without keys such as the arrows";
    assert_eq!((ran.status, ran.text().lines().last()), (2, Some(shown)));
    assert!(ran.text().contains("\ngranted: claims 1 kW"), "a tab is a space");
    let script = file("keys.desk", b"10\tclaim neighbour 1\n20 claim neighbour \x1b[D1\n");
    let ran = depot(&["run", "examples/small-depot.csv", "--script", &script], b"");
    assert_eq!((ran.status, ran.errors.lines().count()), (2, 1));
    assert!(ran.errors.contains("line 2: found '\\u{1b}[D1'") && !ran.errors.contains('\x1b'), "{}", ran.errors);
}

/// A night's script says where it belongs, a line for each of its calls.
#[test]
fn a_night_s_script_on_the_desk() {
    let ran = depot(&["desk", "examples/workshop-night.desk"], b"");
    assert_eq!((ran.status, ran.errors.as_str()), (2, "depot: 9 lines are no command; the exit status is 2\n"));
    assert_eq!(ran.text().matches("'depot run LIST --script FILE' takes calls with one\n").count(), 9, "{}", ran.text());
}

/// A line that is no command is named, the others are still taken, and the status says it.
#[test]
fn desk_lines() {
    let all = "open, change, claim, back, look, show, save, load, log, undo, explain, help, quit";
    let night = "allowed: commands without a time; 'depot run LIST --script FILE' takes calls with one";
    let lines: [(&str, &str); 32] = [
        ("claim 0 1", "there is no desk yet; open one first, as 'open 500 yard=240/420 workshop=100/200'"),
        ("open", "found 'open' alone; allowed: open LIMIT SHARE/CEILING .., as 'open 500 yard=240/420 workshop=100/200'"),
        ("open x 1/2 1/2", "found 'x'; allowed: kW, as 30 or 12.5, or modules of a size, as 3x30"),
        ("open 10 4-10 3/10", "found '4-10'; allowed: SHARE/CEILING or NAME=SHARE/CEILING, as 240/420 or yard=240/420"),
        ("open 10 7=4/10 3/10", "found '7=4/10'; allowed: SHARE/CEILING or NAME=SHARE/CEILING, as 240/420 or yard=240/420"),
        ("open 10 4/10.25 3/10", "found '10.25'; allowed: whole hundreds of watts, so 10.2 or 10.3 kW"),
        ("open 10 a=4/10 a=3/10", "found the name 'a' twice; allowed: a name for each controller"),
        ("claim 0", "found 'claim 0'; allowed: claim CONTROLLER KW, as 'claim 0 12.5'"),
        ("claim yard 1", "there is no desk yet; open one first, as 'open 500 yard=240/420 workshop=100/200'"),
        ("claim 0 -1", "found '-1'; allowed: kW, as 30 or 12.5, or modules of a size, as 3x30"),
        ("claim 0 0.05", "found '0.05'; allowed: whole hundreds of watts, so 0 or 0.1 kW"),
        ("back 0 429496729.6", "found '429496729.6'; allowed: kW, up to 40000"),
        ("look 0 1", "found 'look 0 1'; allowed: look, or look CONTROLLER"),
        ("explain 99", "found '99'; allowed: refusals 1 to 26"),
        ("explain x", "found 'x'; allowed: a refusal's number, 1 to 26"),
        ("change", "found 'change' alone; allowed: change LIMIT SHARE/CEILING .., as 'change 400 yard=180/360 workshop=100/200'"),
        ("change 10 4/10 3/10", "there is no desk yet; open one first, as 'open 500 yard=240/420 workshop=100/200'"),
        ("change 10 yard=4/10 3/10", "there is no desk yet; open one first, as 'open 500 yard=240/420 workshop=100/200'"),
        ("save x", "there is no desk yet; open one first, as 'open 500 yard=240/420 workshop=100/200'"),
        ("save", "found 'save'; allowed: save FILE, a name without a space"),
        ("log a b", "found 'log a b'; allowed: log FILE, a name without a space"),
        ("load -", "found 'load -'; allowed: load FILE, a name of its own"),
        ("load Cargo.toml", "'Cargo.toml' cannot be read: there is no such file or folder"),
        ("load host/Cargo.toml", "'host/Cargo.toml' is no desk; allowed: a file that 'save' wrote, or the 104 bytes of a desk"),
        ("log no/such/folder", "'no/such/folder' cannot be written: there is no such file or folder"),
        ("undo", "no command has changed the desk; there is nothing to undo"),
        ("grab 1 1", &format!("found 'grab 1 1'; allowed: {all}; did you mean 'claim'?")),
        ("hand back yard 2", &format!("found 'hand back yard 2'; allowed: {all}; did you mean 'back'?")),
        ("hello", &format!("found 'hello'; allowed: {all}")),
        ("21:30 claim workshop 50", &format!("found '21:30 claim workshop 50'; {night}")),
        ("15 back 1 50", &format!("found '15 back 1 50'; {night}")),
        ("00:30+1 change 400 4/8 4/8", &format!("found '00:30+1 change 400 4/8 4/8'; {night}")),
    ];
    let script = file("wrong.desk", lines.map(|(line, _)| line).join("\n").as_bytes());
    let ran = depot(&["desk", &script], b"");
    assert_eq!((ran.status, ran.errors.as_str()), (2, "depot: 32 lines are no command; the exit status is 2\n"));
    let said: Vec<String> = ran.text().lines().filter(|line| !line.starts_with('>')).map(String::from).collect();
    let expected = lines.iter().enumerate().map(|(place, (_, why))| format!("{script}, line {}: {why}", place + 1));
    assert_eq!(said, expected.collect::<Vec<_>>());
    let pairs = depot(&["desk"], b"open 10 yard=4/10 shop=3/10\nclaim yard=2 1\nCLAIM yard 2\n");
    assert!(
        pairs.text().contains("\nfound 'yard=2'; allowed: a controller and then kW, as 'yard 2'\ngranted: claims 2 kW"),
        "{}",
        pairs.text()
    );
    let json = depot(&["desk", "--json"], b"grab\nopen 10 4/10 3/10\n");
    assert_eq!(json.status, 2);
    assert!(json.text().starts_with("{\"error\": \"found 'grab'; ") && json.text().contains("\"call\": \"open\""));
}
