//! What shells complete behind `depot`, made of the help.
use crate::help;
use crate::help_parts::{verbs, without_a_verb, Choice, Verb};
use crate::outcome::{say, Outcome, Trouble};
use std::fmt::Write;

/// `depot help --complete SHELL`
pub fn run(words: &[String]) -> Result<Outcome, Trouble> {
    match words.first().map(String::as_str) {
        Some("bash") => say(&bash()),
        Some("zsh") => say(&zsh()),
        Some("fish") => say(&fish()),
        _ => Err(Trouble::usage("--complete takes bash, zsh or fish", help::VERB)),
    }
}

fn bash() -> String {
    let verbs = verbs();
    let names = joined(verbs.iter().map(|verb| verb.name));
    let top = joined(without_a_verb().iter().map(|option| &option.name[..]));
    let [ask, _] = help::ASKS;
    let show = help::VERB;
    let mut text = format!(
        "# what bash completes behind depot; 'depot {show} --complete bash' writes it
_depot() {{
    local word=${{COMP_WORDS[COMP_CWORD]}} before=${{COMP_WORDS[COMP_CWORD-1]}} verb=${{COMP_WORDS[1]}} options='' files=''
    COMPREPLY=()
    if [ \"$COMP_CWORD\" -eq 1 ]; then
        mapfile -t COMPREPLY < <(compgen -W '{names} {show} {ask} {top}' -- \"$word\")
        return
    fi
    case \"$verb\" in
        {show}) options='{names}' ;;
"
    );
    for verb in &verbs {
        let options = joined(verb.options.iter().map(|option| &option.name[..]));
        let files = if verb.files { " files=yes" } else { "" };
        writeln!(text, "        {}) options='{options} {ask}'{files} ;;", verb.name).unwrap();
    }
    text += "    esac\n    case \"$verb $before\" in\n";
    for verb in &verbs {
        for option in verb.options.iter().filter(|option| option.value.is_some()) {
            let completed = if option.takes_a_file() { "options='' files=yes" } else { "return" };
            writeln!(text, "        '{} {}') {completed} ;;", verb.name, option.name).unwrap();
        }
    }
    text += "    esac
    mapfile -t COMPREPLY < <(compgen -W \"$options\" -- \"$word\")
    case \"$files$word\" in
        yes-*) ;;
        yes*) mapfile -t COMPREPLY < <(compgen -f -- \"$word\") ;;
    esac
}
complete -o filenames -F _depot depot
";
    text
}

fn zsh() -> String {
    let verbs = verbs();
    let [ask, _] = help::ASKS;
    let show = help::VERB;
    let mut text = format!(
        "#compdef depot
# what zsh completes behind depot; 'depot {show} --complete zsh' writes it
_depot() {{
    local -a verbs
    verbs=(
"
    );
    for verb in &verbs {
        writeln!(text, "        {}", quoted(&format!("{}:{}", verb.name, colons(&verb.summary)))).unwrap();
    }
    writeln!(text, "        {show}\n    )\n    if (( CURRENT == 2 )); then\n        _describe verb verbs").unwrap();
    writeln!(text, "        _arguments {ask}{}\n        return\n    fi", specs(&without_a_verb())).unwrap();
    text += "    local verb=$words[2]\n    shift words\n    (( CURRENT-- ))\n    case $verb in\n";
    writeln!(text, "        {show}) _describe verb verbs ;;").unwrap();
    for Verb { name, options, files, .. } in &verbs {
        let files = if *files { " '*:file:_files'" } else { "" };
        writeln!(text, "        {name}) _arguments {ask}{}{files} ;;", specs(options)).unwrap();
    }
    text + "    esac\n}\n_depot \"$@\"\n"
}

/// Options as zsh's `_arguments` takes them.
fn specs(options: &[Choice]) -> String {
    let spec = |option: &Choice| {
        let said = match option.brief() {
            said if said.is_empty() => said,
            said => format!("[{}]", said.replace('[', "(").replace(']', ")")),
        };
        let value = match &option.value {
            Some(value) if option.takes_a_file() => format!(":{}:_files", colons(value)),
            Some(value) => format!(":{}: ", colons(value)),
            None => String::new(),
        };
        format!(" {}", quoted(&format!("{}{said}{value}", option.name)))
    };
    options.iter().map(spec).collect()
}

fn colons(text: &str) -> String {
    text.replace(':', "\\:")
}

/// In single quotes, for zsh.
fn quoted(text: &str) -> String {
    format!("'{}'", text.replace('\'', "'\\''"))
}

fn fish() -> String {
    let verbs = verbs();
    let [ask, _] = help::ASKS;
    let show = help::VERB;
    let mut text =
        format!("# what fish completes behind depot; 'depot {show} --complete fish' writes it\ncomplete -c depot -f\n");
    let none = "-n __fish_use_subcommand";
    for verb in &verbs {
        writeln!(text, "complete -c depot {none} -a {} -d {}", verb.name, in_fish(&verb.summary)).unwrap();
    }
    writeln!(text, "complete -c depot {none} -a {show}").unwrap();
    for option in without_a_verb() {
        writeln!(text, "complete -c depot {none} {}", fish_option(&option)).unwrap();
    }
    let behind = |verb: &str| format!("-n '__fish_seen_subcommand_from {verb}'");
    let names = joined(verbs.iter().map(|verb| verb.name));
    writeln!(text, "complete -c depot {} -a '{names}'", behind(show)).unwrap();
    for verb in &verbs {
        for option in &verb.options {
            writeln!(text, "complete -c depot {} {}", behind(verb.name), fish_option(option)).unwrap();
        }
        if verb.files {
            writeln!(text, "complete -c depot {} -F", behind(verb.name)).unwrap();
        }
    }
    text + &format!("complete -c depot -l {}\n", ask.trim_start_matches('-'))
}

/// An option as fish's `complete` takes it.
fn fish_option(option: &Choice) -> String {
    let name = match option.name.strip_prefix("--") {
        Some(long) => format!("-l {long}"),
        None => format!("-s {}", option.name.trim_start_matches('-')),
    };
    let value = match &option.value {
        Some(_) if option.takes_a_file() => " -r -F",
        Some(_) => " -x",
        None => "",
    };
    match option.brief() {
        said if said.is_empty() => format!("{name}{value}"),
        said => format!("{name}{value} -d {}", in_fish(&said)),
    }
}

/// In single quotes, for fish.
fn in_fish(text: &str) -> String {
    format!("'{}'", text.replace('\\', "\\\\").replace('\'', "\\'"))
}

fn joined<'a>(words: impl Iterator<Item = &'a str>) -> String {
    words.collect::<Vec<_>>().join(" ")
}
