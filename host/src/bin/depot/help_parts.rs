//! What the help says, in parts: the verbs, what each is for, and its options.
use crate::help;

/// What stands for a file in the help.
const FILES: [&str; 5] = ["LIST", "SHEET", "FILE", "OUT", "SCRIPT"];

/// An option as the help shows it.
#[derive(Clone, Debug, PartialEq, Eq)]
pub struct Choice {
    pub name: String,
    /// What stands for its value, where it has one.
    pub value: Option<String>,
    /// What is said of it, line by line; an indented line is to be shown as it stands.
    pub lines: Vec<String>,
}

/// A verb.
pub struct Verb {
    pub name: &'static str,
    /// What it is for, in a line of the help without a verb.
    pub summary: String,
    pub usage: String,
    /// Its help behind the usage.
    pub text: &'static str,
    pub options: Vec<Choice>,
    /// Whether it takes files that stand without an option.
    pub files: bool,
}

/// Every verb, in the order of the help.
pub fn verbs() -> Vec<Verb> {
    help::VERBS.iter().map(|(name, help, _)| verb(name, help)).collect()
}

fn verb(name: &'static str, help: &'static str) -> Verb {
    let (usage, text) = help.split_once("\n\n").expect("a usage, and what it means");
    let usage = usage.trim_start_matches("usage: ").to_string();
    let mut options: Vec<Choice> = chunks(text).filter(|chunk| is_table(chunk)).flat_map(table).collect();
    for choice in in_usage(&usage) {
        if options.iter().all(|option| option.name != choice.name) {
            options.push(choice);
        }
    }
    let (_, summary) =
        of_depot().find(|(words, _)| words.split(' ').next() == Some(name)).expect("a line in the help without a verb");
    let files = usage.split([' ', '|', '[', ']']).any(stands_for_a_file);
    Verb { name, summary: summary.into(), usage, text, options, files }
}

/// The options of `depot` without a verb.
pub fn without_a_verb() -> Vec<Choice> {
    let of_line = |(words, summary): (&str, &str)| choice(words, vec![summary.into()]);
    of_depot().filter(|(words, _)| words.starts_with('-')).map(of_line).collect()
}

/// The lines of the help without a verb: what stands behind `depot`, and what it does.
fn of_depot() -> impl Iterator<Item = (&'static str, &'static str)> {
    let line = |line: &'static str| {
        let (words, summary) = line.strip_prefix("  depot ")?.split_once("  ")?;
        Some((words, summary.trim()))
    };
    help::TOP.lines().filter_map(line)
}

/// The parts of a help text that blank lines separate.
pub fn chunks(text: &'static str) -> impl Iterator<Item = &'static str> {
    text.split("\n\n").map(|chunk| chunk.trim_matches('\n')).filter(|chunk| !chunk.is_empty())
}

/// Whether a part is a table of options.
pub fn is_table(chunk: &str) -> bool {
    chunk.starts_with("  -")
}

/// The options of a table: a line each, and below it lines that begin in the column of its words or behind it.
pub fn table(chunk: &str) -> Vec<Choice> {
    let mut choices: Vec<Choice> = Vec::new();
    let mut column = 0;
    for line in chunk.lines() {
        if is_table(line) {
            let (head, words) = line.trim_start().split_once("  ").expect("what is said of the option");
            column = line.len() - words.trim_start().len();
            choices.push(choice(head, vec![words.trim_start().into()]));
        } else if let Some(last) = choices.last_mut() {
            last.lines.push(line.get(column..).unwrap_or(line.trim_start()).into());
        }
    }
    choices
}

/// The options that a usage names.
fn in_usage(usage: &str) -> Vec<Choice> {
    let words: Vec<&str> = usage.split_whitespace().collect();
    let bare = |word: &str| word.trim_matches(['[', ']']).to_string();
    let option = |place: usize| {
        let name = bare(words[place]);
        let value = words.get(place + 1).filter(|next| !words[place].ends_with(']') && !next.starts_with('['));
        (name.len() > 1 && name.starts_with('-')).then(|| Choice { name, value: value.map(|word| bare(word)), lines: Vec::new() })
    };
    (0..words.len()).filter_map(option).collect()
}

/// An option by its name and its value.
fn choice(head: &str, lines: Vec<String>) -> Choice {
    let (name, value) = head.split_once(' ').map_or((head, None), |(name, value)| (name, Some(value.to_string())));
    Choice { name: name.into(), value, lines }
}

fn stands_for_a_file(word: &str) -> bool {
    FILES.contains(&word)
}

impl Choice {
    /// Whether its value is a file.
    pub fn takes_a_file(&self) -> bool {
        self.value.as_deref().is_some_and(stands_for_a_file)
    }

    /// What is said of it, up to the first semicolon or colon.
    pub fn brief(&self) -> String {
        let filled: Vec<&str> = self.lines.iter().map(String::as_str).take_while(|line| !line.starts_with(' ')).collect();
        let words = filled.join(" ");
        let end = [": ", "; "].iter().filter_map(|sign| words.find(sign)).min().unwrap_or(words.len());
        words[..end].trim_end_matches(':').into()
    }
}

#[test]
fn options_of_a_help() {
    const HELP: &str = "usage: depot plan LIST.csv -o FILE [--by TIME] [--json]

Shows it.

  --svg OUT    a picture
  --by TIME    a minute, or a
               time; no more
                 05:30
  --raw        lines: bare
";
    let one = |name: &str, value: &str, lines: &[&str]| Choice {
        name: name.into(),
        value: (!value.is_empty()).then(|| value.into()),
        lines: lines.iter().map(|line| line.to_string()).collect(),
    };
    let verb = verb("plan", HELP);
    let by = one("--by", "TIME", &["a minute, or a", "time; no more", "  05:30"]);
    let expected = [
        one("--svg", "OUT", &["a picture"]),
        by.clone(),
        one("--raw", "", &["lines: bare"]),
        one("-o", "FILE", &[]),
        one("--json", "", &[]),
    ];
    assert_eq!(verb.options, expected);
    assert_eq!(verb.options.iter().map(Choice::takes_a_file).collect::<Vec<_>>(), [true, false, false, true, false]);
    assert_eq!((by.brief(), verb.options[2].brief()), ("a minute, or a time".into(), "lines".into()));
    assert!(verb.files && verb.usage.starts_with("depot plan"));
}
