//! The manual page `depot.1`, made of the help.
use crate::help;
use crate::help_parts::{chunks, is_table, table, verbs, Choice};
use std::fmt::Write;

/// What the help's paragraph about exit statuses begins with: on the page it is a section.
const EXIT_STATUS: &str = "Exit status: ";

/// The page, for man.
pub fn text() -> String {
    let mut top = chunks(help::TOP);
    let about = top.next().expect("what depot is");
    let (name, description) = about.split_once('\n').unwrap_or((about, ""));
    let name = escaped(name.trim_start_matches("depot: ").trim_end_matches('.'));
    let usage = top.next().expect("a usage").trim_start_matches("usage: depot ");
    let mut page = format!(".TH DEPOT 1 \"\" \"depot {}\" \"depot\"\n", env!("CARGO_PKG_VERSION"));
    write!(page, ".SH NAME\ndepot \\- {name}\n").unwrap();
    write!(page, ".SH SYNOPSIS\n.B depot\n{}\n", escaped(usage)).unwrap();
    page += ".SH DESCRIPTION\n";
    page += &of_chunks(description);
    for chunk in top {
        match chunk.strip_prefix(EXIT_STATUS) {
            Some(statuses) => write!(page, ".SH EXIT STATUS\n{}", flow(statuses.lines())).unwrap(),
            None => page += &of_chunk(chunk),
        }
    }
    page += ".SH VERBS\n";
    for verb in verbs() {
        write!(page, ".SS {}\n{}", verb.name, flow([&verb.usage[..]])).unwrap();
        page += &of_chunks(verb.text);
    }
    page += ".SH THE LIST\n";
    page + &of_chunks(help::LIST_FORMAT)
}

fn of_chunks(text: &'static str) -> String {
    chunks(text).map(of_chunk).collect()
}

fn of_chunk(chunk: &'static str) -> String {
    if is_table(chunk) {
        return table(chunk).iter().map(of_option).collect();
    }
    format!(".PP\n{}", flow(chunk.lines()))
}

/// An option in bold, its value in italics, and what is said of it.
fn of_option(option: &Choice) -> String {
    let value = option.value.as_ref().map(|value| format!(" \\fI{}\\fR", escaped(value))).unwrap_or_default();
    format!(".TP\n\\fB{}\\fR{value}\n{}", escaped(&option.name), flow(option.lines.iter().map(String::as_str)))
}

/// Lines that are filled; those that are indented stay as they stand.
fn flow<'a>(lines: impl IntoIterator<Item = &'a str>) -> String {
    let mut text = String::new();
    let mut stands = false;
    for line in lines {
        let indented = line.starts_with(' ');
        if indented != stands {
            text += if indented { ".nf\n" } else { ".fi\n" };
            stands = indented;
        }
        writeln!(text, "{}", escaped(line)).unwrap();
    }
    if stands {
        text += ".fi\n";
    }
    text
}

/// A line as roff shows it: signs of its own, and a first sign that would be a request.
fn escaped(line: &str) -> String {
    let line = line.replace('\\', "\\e").replace('-', "\\-");
    if line.starts_with(['.', '\'']) {
        return format!("\\&{line}");
    }
    line
}

#[test]
fn lines_of_a_page() {
    assert_eq!(escaped("'depot plan' --raw \\"), "\\&'depot plan' \\-\\-raw \\e");
    assert_eq!(flow(["a", " b", "c"]), "a\n.nf\n b\n.fi\nc\n");
    assert_eq!(flow(["a", " b"]), "a\n.nf\n b\n.fi\n");
}
