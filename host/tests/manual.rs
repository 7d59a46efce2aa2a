//! The manual page and what shells complete: they have every verb of the help, and every option that the help of a verb names.
mod command;

use command::{depot, file, run};
use std::collections::BTreeSet;
use std::path::Path;
use std::process::Command;

/// The verbs that the help without a verb names.
fn verbs() -> Vec<String> {
    let help = depot(&["--help"], b"").text();
    let verb = |line: &str| line.strip_prefix("  depot ")?.split(' ').next().map(str::to_string);
    let mut verbs: Vec<String> =
        help.lines().filter_map(verb).filter(|word| word.chars().all(|c| c.is_ascii_lowercase())).collect();
    verbs.dedup();
    assert!(verbs.len() >= 11, "{verbs:?}");
    verbs
}

/// The options that the help of a verb names, and the one that asks for it.
fn options(verb: &str) -> BTreeSet<String> {
    let help = depot(&[verb, "--help"], b"").text();
    let bare = help.split(|c: char| c.is_whitespace() || "[]|,;:.'()".contains(c));
    let options = bare.filter(|word| word.trim_start_matches('-').starts_with(|c: char| c.is_ascii_lowercase()));
    options.filter(|word| word.starts_with('-')).chain(["--help"]).map(str::to_string).collect()
}

fn installed(program: &str) -> bool {
    Command::new(program).arg("--version").output().is_ok_and(|said| said.status.success())
}

#[test]
fn manual_page() {
    let page = depot(&["help", "--man"], b"").text();
    let sections: Vec<&str> = page.split("\n.SS ").collect();
    for verb in verbs() {
        let section = sections.iter().find(|section| section.starts_with(&format!("{verb}\n"))).expect("a section for each verb");
        for option in options(&verb).iter().filter(|option| *option != "--help") {
            assert!(section.contains(&option.replace('-', "\\-")), "{verb} {option}");
        }
    }
    assert!(page.contains(concat!("depot ", env!("CARGO_PKG_VERSION"))));
    let file = file("depot.1", page.as_bytes());
    if installed("man") && installed("groff") {
        let shown = run(Path::new("man"), &["--warnings", "-l", &file], b"");
        assert_eq!((shown.status, shown.errors.as_str()), (0, ""));
    }
    if Command::new("mandoc").output().is_ok() {
        let lint = run(Path::new("mandoc"), &["-Tlint", "-Werror", &file], b"");
        assert_eq!(lint.status, 0, "{}", lint.text());
    }
}

/// What bash completes behind these words, the last of which is begun.
fn completed(script: &str, words: &[&str]) -> BTreeSet<String> {
    let quoted: Vec<String> = words.iter().map(|word| format!("'{word}'")).collect();
    let call = format!(
        ". '{script}'; COMP_WORDS=({}); COMP_CWORD={}; _depot; printf '%s\\n' \"${{COMPREPLY[@]}}\"",
        quoted.join(" "),
        words.len() - 1
    );
    let ran = run(Path::new("bash"), &["-c", &call], b"");
    assert_eq!((ran.status, ran.errors.as_str()), (0, ""), "{words:?}");
    ran.text().lines().filter(|line| !line.is_empty()).map(str::to_string).collect()
}

#[test]
fn bash_completes() {
    let script = file("depot.bash", &depot(&["help", "--complete", "bash"], b"").output);
    let behind_depot: BTreeSet<String> = completed(&script, &["depot", ""]);
    let verbs = verbs();
    let expected: BTreeSet<String> = verbs.iter().cloned().chain(["help", "--help", "--version"].map(String::from)).collect();
    assert_eq!(behind_depot, expected);
    assert_eq!(completed(&script, &["depot", "help", ""]), verbs.iter().cloned().collect());
    for verb in &verbs {
        assert_eq!(completed(&script, &["depot", verb, "-"]), options(verb), "{verb}");
    }
    let lists = ["hard-night", "mixed-night"].map(|name| format!("examples/{name}."));
    for words in [&["depot", "plan", "examples/"][..], &["depot", "plan", "a", "--svg", "examples/"]] {
        let files = completed(&script, words);
        assert!(lists.iter().all(|list| files.iter().any(|file| file.starts_with(list))), "{files:?}");
    }
    assert_eq!(completed(&script, &["depot", "plan", "--start", ""]), BTreeSet::new());
}

#[test]
fn zsh_and_fish_complete() {
    let [zsh, fish] = ["zsh", "fish"].map(|shell| depot(&["help", "--complete", shell], b"").text());
    for verb in verbs() {
        assert!(zsh.contains(&format!("\n        '{verb}:")), "{verb}");
        assert!(fish.contains(&format!(" -n __fish_use_subcommand -a {verb} -d ")), "{verb}");
        let in_zsh =
            zsh.lines().find(|line| line.trim_start().starts_with(&format!("{verb}) _arguments --help"))).expect("a case");
        for option in options(&verb).iter().filter(|option| *option != "--help") {
            let named = |behind: &str| in_zsh.contains(&format!(" '{option}{behind}"));
            assert!(named("[") || named(":") || named("'"), "{verb} {option}");
            let in_fish = match option.strip_prefix("--") {
                Some(long) => format!("-l {long}"),
                None => format!("-s {}", &option[1..]),
            };
            let start = format!("complete -c depot -n '__fish_seen_subcommand_from {verb}' {in_fish}");
            assert!(fish.lines().any(|line| line == start || line.starts_with(&format!("{start} "))), "{verb} {option}");
        }
    }
    for (shell, text) in [("zsh", zsh), ("fish", fish)].into_iter().filter(|(shell, _)| installed(shell)) {
        let script = file(&format!("depot.{shell}"), text.as_bytes());
        assert_eq!(run(Path::new(shell), &["-n", &script], b"").errors, "", "{shell}");
    }
}

#[test]
fn another_shell_is_not_known() {
    for words in [&["help", "--complete"][..], &["help", "--complete", "csh"]] {
        let ran = depot(words, b"");
        assert_eq!((ran.status, ran.output.len()), (2, 0));
        assert!(ran.errors.contains("--complete takes bash, zsh or fish"), "{}", ran.errors);
    }
}
