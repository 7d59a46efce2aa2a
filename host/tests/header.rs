//! `include/depot.h` against the Rattle signatures, against `src/ffi.rs`, against the archive and against what is measured.
use depot_host::{ffi, stack, Desk, Job, JobSlack, Refusal, Runner};
use std::collections::BTreeMap;
use std::path::{Path, PathBuf};
use std::process::Command;
use std::{env, fs};

/// Where it stands before a call, compilers warn of an answer that is left.
const MUST_USE: &str = "DEPOT_MUST_USE";

/// A name and its type, in C's notation; of an array its length behind it, by name.
type Named = (String, String);

/// What a call gives, and what it takes.
type Signature = (String, Vec<Named>);

fn top() -> PathBuf {
    Path::new(env!("CARGO_MANIFEST_DIR")).join("..")
}

/// A file of the repository without its comments and without C's preprocessor lines.
fn source(path: &str) -> String {
    let text = fs::read_to_string(top().join(path)).unwrap_or_else(|why| panic!("{path}: {why}"));
    let mut plain = String::new();
    let mut rest = text.as_str();
    while let Some((before, comment)) = rest.split_once("/*") {
        plain += before;
        rest = comment.split_once("*/").expect("the comment ends").1;
    }
    plain += rest;
    let code = |line: &&str| !line.trim_start().starts_with('#') && !line.trim_start().starts_with("//");
    plain.lines().filter(code).collect::<Vec<_>>().join("\n")
}

/// The numbers of C's macros, of those that are a number.
fn macros() -> BTreeMap<String, usize> {
    let text = ["include/depot.h", "include/depot_card.h"]
        .map(|path| fs::read_to_string(top().join(path)).expect("the header is there"));
    let define = |line: &str| {
        let mut words = line.strip_prefix("#define ")?.split_whitespace();
        Some((words.next()?.to_string(), words.next()?.parse().ok()?))
    };
    text.iter().flat_map(|text| text.lines()).filter_map(define).collect()
}

// ---- C

/// A declaration `type name` or `type name[length]`.
fn c_named(declaration: &str) -> Named {
    let (declaration, length) = match declaration.split_once('[') {
        Some((before, length)) => (before, format!("[{}", length.trim().trim_start_matches("DEPOT_"))),
        None => (declaration, String::new()),
    };
    let words = declaration.replace('*', " * ");
    let mut words: Vec<&str> = words.split_whitespace().collect();
    let name = words.pop().expect("a name").to_string();
    (name, words.join(" ") + &length)
}

fn c_calls() -> BTreeMap<String, Signature> {
    let text = source("include/depot.h");
    let call = |statement: &str| {
        let (head, rest) = statement.rsplit_once(['{', '}']).map_or(statement, |(_, last)| last).split_once('(')?;
        let (name, result) = c_named(head.trim_start().trim_start_matches(MUST_USE));
        if !name.starts_with("depot_") {
            return None;
        }
        let parameters = rest.split_once(')')?.0.split(',').filter(|one| one.trim() != "void").map(c_named).collect();
        Some((name, (result, parameters)))
    };
    text.split(';').filter_map(call).collect()
}

fn c_structs() -> BTreeMap<String, Vec<Named>> {
    let text = source("include/depot.h");
    let fields = |definition: &str| {
        let (head, fields) = definition.rsplit_once('{')?;
        let (_, name) = head.rsplit_once("struct ")?;
        let fields = fields.split(';').filter(|field| !field.trim().is_empty());
        Some((format!("struct {}", name.trim()), fields.map(c_named).collect()))
    };
    text.split("};").filter_map(fields).collect()
}

// ---- Rattle and Rust

/// The C type of a number or a struct.
fn in_c(name: &str) -> String {
    let name = match name {
        "u8" => "uint8_t",
        "u16" => "uint16_t",
        "u32" => "uint32_t",
        "u64" => "uint64_t",
        "i32" => "int32_t",
        "usize" => "size_t",
        "Job" => "struct depot_job",
        "Reading" => "struct depot_reading",
        "LabelPlace" => "struct depot_label_place",
        "Earliest" => "struct depot_earliest",
        "Limited" => "struct depot_limited",
        "Usage" => "struct depot_usage",
        "Written" => "struct depot_written",
        "Desk" => "struct depot_desk",
        "SetCount" => "struct depot_set_count",
        "Sized" => "struct depot_sized",
        "JobSlack" => "struct depot_job_slack",
        "Slacks" => "struct depot_slacks",
        "Looked" => "struct depot_looked",
        "Runner" => "struct depot_runner",
        "Started" => "struct depot_started",
        "Stepped" => "struct depot_stepped",
        other => panic!("{other} has no type in C"),
    };
    name.to_string()
}

/// A parameter as it crosses to C: a slice is two.
fn crossing(name: &str, kind: &str) -> Vec<Named> {
    let named = |kind: String| vec![(name.to_string(), kind)];
    let pointer = |to: &str, constant: bool| if constant { format!("const {} *", in_c(to)) } else { format!("{} *", in_c(to)) };
    for (start, constant) in [("*const ", true), ("*mut ", false), ("&mut ", false), ("&", true)] {
        if let Some(to) = kind.strip_prefix(start) {
            return match to.strip_prefix('[').and_then(|slice| slice.strip_suffix(']')) {
                Some(element) => [named(pointer(element, constant)), vec![(format!("{name}_len"), "size_t".into())]].concat(),
                None => named(pointer(to, constant)),
            };
        }
    }
    named(in_c(kind))
}

/// The functions of a text in Rust's or Rattle's notation whose names begin with `depot_`.
fn calls(text: &str) -> BTreeMap<String, Signature> {
    let call = |part: &str| {
        let (name, rest) = part.split_once('(').expect("parameters");
        let (parameters, rest) = rest.split_once(')').expect("their end");
        let result = rest.trim_start().strip_prefix("-> ").expect("a result");
        let result: String = result.chars().take_while(|c| c.is_alphanumeric()).collect();
        let parameters = parameters.split(',').filter_map(|parameter| parameter.split_once(':'));
        let parameters = parameters.flat_map(|(name, kind)| crossing(name.trim(), kind.trim())).collect();
        (format!("depot_{name}"), (in_c(&result), parameters))
    };
    text.split("fn depot_").skip(1).map(call).collect()
}

/// The fields of a struct of a text in Rust's or Rattle's notation.
fn fields(text: &str, name: &str) -> Vec<Named> {
    let (_, rest) = text.split_once(&format!("pub struct {name} {{")).unwrap_or_else(|| panic!("no struct {name}"));
    let (fields, _) = rest.split_once("\n}").expect("its end");
    let field = |field: &str| {
        let (name, kind) = field.trim().trim_end_matches(',').strip_prefix("pub ")?.split_once(": ")?;
        let kind = match kind.strip_prefix('[').and_then(|array| array.split_once("; ")) {
            Some((element, length)) => format!("{}[{length}", in_c(element)),
            None => in_c(kind),
        };
        Some((name.to_string(), kind))
    };
    fields.lines().filter_map(field).collect()
}

/// The number of a constant of a text in Rust's or Rattle's notation.
fn constant(text: &str, name: &str) -> usize {
    let (_, rest) = text.split_once(&format!("const {name}: ")).unwrap_or_else(|| panic!("no constant {name}"));
    rest.split_once(" = ").and_then(|(_, number)| number.split_once(';')).expect("a number").0.parse().expect("a number")
}

// ---- the tests

#[test]
fn calls_agree() {
    let declared = c_calls();
    assert_eq!(declared.len(), 19);
    assert_eq!(calls(&source("crates/depot/src/lib.rt")), declared);
    assert_eq!(calls(&source("host/src/ffi.rs")), declared);
}

#[test]
fn structs_agree() {
    let files = [
        ("Job", "crates/sheet_format/src/lib.rt", "host/src/sheet.rs"),
        ("Earliest", "crates/earliest/src/lib.rt", "host/src/ffi.rs"),
        ("Limited", "crates/limited/src/lib.rt", "host/src/ffi.rs"),
        ("Usage", "crates/occupancy/src/lib.rt", "host/src/ffi.rs"),
        ("Reading", "crates/sheet/src/lib.rt", "host/src/ffi.rs"),
        ("LabelPlace", "crates/sheet/src/lib.rt", "host/src/ffi.rs"),
        ("Written", "crates/sheet/src/lib.rt", "host/src/ffi.rs"),
        ("SetCount", "crates/job_sets/src/lib.rt", "host/src/ffi.rs"),
        ("Sized", "crates/sizing/src/lib.rt", "host/src/ffi.rs"),
        ("JobSlack", "crates/slack/src/lib.rt", "host/src/slack.rs"),
        ("Slacks", "crates/slack/src/lib.rt", "host/src/ffi.rs"),
        ("Desk", "crates/desk/src/lib.rt", "host/src/desk.rs"),
        ("Looked", "crates/lent/src/lib.rt", "host/src/ffi.rs"),
        ("Runner", "crates/runner/src/lib.rt", "host/src/runner.rs"),
        ("Started", "crates/runner/src/lib.rt", "host/src/ffi.rs"),
        ("Stepped", "crates/runner/src/lib.rt", "host/src/ffi.rs"),
    ];
    let declared = c_structs();
    assert_eq!(declared.len(), files.len());
    for (name, rattle, rust) in files {
        let in_header = &declared[&in_c(name)];
        assert!(in_header.len() >= 2);
        assert_eq!(&fields(&source(rattle), name), in_header, "{name} of {rattle}");
        assert_eq!(&fields(&source(rust), name), in_header, "{name} of {rust}");
    }
}

/// Of every call that can refuse, an answer that is left is warned of.
#[test]
fn answers_must_be_used() {
    let declared = source("include/depot.h").matches(&format!("{MUST_USE}\n")).count();
    let of_the_version = "uint32_t depot_version(void);";
    assert_eq!(declared, c_calls().len() - 1);
    assert!(!source("include/depot.h").contains(&format!("{MUST_USE}\n{of_the_version}")));
}

/// The header asserts the size of each struct, and it is the wrapper's.
#[test]
fn sizes_agree() {
    let sizes = [
        ("Job", size_of::<Job>()),
        ("Earliest", size_of::<ffi::Earliest>()),
        ("Limited", size_of::<ffi::Limited>()),
        ("Usage", size_of::<ffi::Usage>()),
        ("Reading", size_of::<ffi::Reading>()),
        ("LabelPlace", size_of::<ffi::LabelPlace>()),
        ("Written", size_of::<ffi::Written>()),
        ("SetCount", size_of::<ffi::SetCount>()),
        ("Sized", size_of::<ffi::Sized>()),
        ("JobSlack", size_of::<JobSlack>()),
        ("Slacks", size_of::<ffi::Slacks>()),
        ("Desk", size_of::<Desk>()),
        ("Looked", size_of::<ffi::Looked>()),
        ("Runner", size_of::<Runner>()),
        ("Started", size_of::<ffi::Started>()),
        ("Stepped", size_of::<ffi::Stepped>()),
    ];
    let header = source("include/depot.h");
    let asserted: Vec<&str> = header.split("DEPOT_STATIC_ASSERT(sizeof(struct ").skip(1).collect();
    assert_eq!(asserted.len(), c_structs().len());
    for (name, bytes) in sizes {
        let struct_in_c = in_c(name);
        let tag = struct_in_c.trim_start_matches("struct ");
        let expected = format!("{tag}) == {bytes}, {tag}_has_{bytes}_bytes);");
        assert!(asserted.iter().any(|assertion| assertion.starts_with(&expected)), "{expected}");
    }
}

#[test]
fn numbers_agree() {
    let macros = macros();
    let (figures, layout) = (source("crates/figures/src/lib.rt"), source("crates/sheet_format/src/layout.rt"));
    let (card, desk) = (source("crates/card/src/lib.rt"), source("crates/desk/src/lib.rt"));
    for (name, number) in [
        ("DEPOT_MOST_JOBS", constant(&figures, "MOST_JOBS")),
        ("DEPOT_MOST_MODULES", constant(&figures, "MOST_MODULES")),
        ("DEPOT_LONGEST_LABEL", constant(&layout, "LONGEST_LABEL")),
        ("DEPOT_SHORTEST_SHEET", constant(&layout, "TRAILER_SIZE")),
        ("DEPOT_LONGEST_SHEET", constant(&layout, "LONGEST_SHEET")),
        ("DEPOT_LONGEST_CARD", depot_host::card_length(depot_host::MOST_JOBS)),
        ("DEPOT_CARD_ROW_BYTES", constant(&card, "ROW_SIZE")),
        ("DEPOT_CARD_ROW_END", constant(&card, "ROW_END")),
        ("DEPOT_CARD_ROW_MODULES", constant(&card, "ROW_MODULES")),
        ("DEPOT_CARD_TRAILER_BYTES", constant(&card, "TRAILER_SIZE")),
        ("DEPOT_CARD_TRAILER_END", constant(&card, "TRAILER_END")),
        ("DEPOT_CARD_TRAILER_JOBS", constant(&card, "TRAILER_COUNT")),
        ("DEPOT_FEWEST_CONTROLLERS", constant(&desk, "FEWEST_CONTROLLERS")),
        ("DEPOT_MOST_CONTROLLERS", constant(&desk, "MOST_CONTROLLERS")),
        ("DEPOT_MOST_POWER", constant(&desk, "MOST_POWER")),
        ("DEPOT_LARGEST_SIZE", constant(&source("crates/runner/src/lib.rt"), "LARGEST_SIZE")),
    ] {
        assert_eq!(macros[name], number, "{name}");
    }
    assert_eq!(depot_host::MOST_JOBS, macros["DEPOT_MOST_JOBS"]);
    assert_eq!(depot_host::LONGEST_SHEET, macros["DEPOT_LONGEST_SHEET"]);
    assert_eq!(depot_host::LONGEST_LABEL, macros["DEPOT_LONGEST_LABEL"]);
    assert_eq!(depot_host::MOST_POWER as usize, macros["DEPOT_MOST_POWER"]);
    assert_eq!(depot_host::LARGEST_SIZE as usize, macros["DEPOT_LARGEST_SIZE"]);
    assert_eq!(depot_host::LONGEST_CARD, macros["DEPOT_LONGEST_CARD"]);
}

/// One version: the header's two forms of it, the proved call's, and the package's.
#[test]
fn versions_agree() {
    let header = fs::read_to_string(top().join("include/depot.h")).expect("the header is there");
    let said = header.lines().find_map(|line| line.strip_prefix("#define DEPOT_VERSION ")).expect("a version");
    assert_eq!(said, format!("{:?}", env!("CARGO_PKG_VERSION")));
    let parts: Vec<usize> = env!("CARGO_PKG_VERSION").split('.').map(|part| part.parse().expect("a number")).collect();
    let number = parts.iter().fold(0, |number, part| 1_000 * number + part);
    assert_eq!(macros()["DEPOT_VERSION_NUMBER"], number);
    assert_eq!(constant(&source("crates/version/src/lib.rt"), "VERSION"), number);
    assert_eq!(depot_host::version().map(|part| part as usize)[..], parts[..]);
}

/// The header names every refusal as the wrapper does, with its number.
#[test]
fn refusals_agree() {
    let text = source("include/depot.h");
    let (_, rest) = text.split_once("enum depot_refusal {").expect("the enum");
    let declared: Vec<Named> = rest
        .split_once('}')
        .expect("its end")
        .0
        .split(',')
        .filter_map(|one| one.split_once(" = "))
        .map(|(name, number)| (name.trim().to_string(), number.trim().to_string()))
        .collect();
    let mut expected = vec![("DEPOT_DONE".to_string(), "0".to_string())];
    for refusal in Refusal::all() {
        let in_capitals = |c: char| if c.is_uppercase() { format!("_{c}") } else { c.to_uppercase().to_string() };
        let name: String = format!("{refusal:?}").chars().map(in_capitals).collect();
        expected.push((format!("DEPOT{name}"), refusal.number().to_string()));
    }
    assert_eq!(expected.len(), 27);
    assert_eq!(declared, expected);
}

/// The archive defines the declared calls and no other name, and needs no more of C than the header says.
#[test]
fn archive_has_the_declared_names() {
    let archive = top().join("target/staticlib/libdepot.a");
    let listed = Command::new("nm").arg("--extern-only").arg(archive).output().expect("nm runs");
    assert!(listed.status.success());
    let listed = String::from_utf8(listed.stdout).expect("names");
    let (mut defined, mut needed) = (Vec::new(), Vec::new());
    for line in listed.lines() {
        match line.split_whitespace().collect::<Vec<_>>()[..] {
            [_, _, name] => defined.push(name),
            ["U", name] => needed.push(name),
            _ => {}
        }
    }
    defined.sort();
    assert_eq!(defined, c_calls().keys().collect::<Vec<_>>());
    let allowed = ["memcpy", "memmove", "memset"];
    assert!(needed.iter().all(|name| allowed.contains(name)), "the archive needs {needed:?}");
    assert!(needed.contains(&"memcpy"), "copies in the archive are calls: {needed:?}");
}

/// Every file that a header names is in the repository, but for the archive, which is made.
#[test]
fn named_files_are_there() {
    for header in ["depot.h", "depot_card.h", "depot_text.h"] {
        let text = fs::read_to_string(top().join("include").join(header)).expect("the header is there");
        let words = text.split(|c: char| c.is_whitespace() || "();:,'\"".contains(c)).map(|word| word.trim_end_matches('.'));
        for name in words.filter(|word| [".h", ".c", ".md", ".rs"].iter().any(|ending| word.ends_with(ending))) {
            let places = ["", "include/"].map(|folder| top().join(format!("{folder}{name}")));
            assert!(places.iter().any(|place| place.is_file()), "{header} names {name}");
        }
    }
}

/// `tests/edges.rs` calls every one of them.
#[test]
fn every_call_is_tested_at_its_edges() {
    let edges = source("host/tests/edges.rs");
    for name in c_calls().keys() {
        assert!(edges.contains(&format!("ffi::{name}(")), "{name}");
    }
}

#[test]
fn stack_is_within_the_header_s_figures() {
    let macros = macros();
    let measured = stack::of_every_call();
    assert_eq!(measured.len(), c_calls().len());
    for (call, bytes) in measured {
        let figure = match call {
            "depot_plan" | "depot_plan_within" | "depot_end" | "depot_use" | "depot_slack" => "DEPOT_PLAN_STACK",
            "depot_size" => "DEPOT_SIZE_STACK",
            "depot_sets" => "DEPOT_SETS_STACK",
            "depot_runner_start" | "depot_runner_step" => "DEPOT_RUNNER_STACK",
            _ => "DEPOT_CALL_STACK",
        };
        println!("{call}: {bytes} of {}", macros[figure]);
        assert!(bytes <= macros[figure], "{call} needs {bytes} bytes of stack");
    }
}
