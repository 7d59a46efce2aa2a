//! The headers in `include/` as compilers take them: C and C++, each standard, with strict warnings; what they refuse to compile; and
//! what their own functions give.
use depot_host::compare::sheets;
use depot_host::random::Random;
use depot_host::raw_sheet::Sheet;
use depot_host::{card_length, plan, Card, Job, Refusal, LONGEST_CARD, MOST_JOBS};
use std::fmt::Write as _;
use std::io::Write as _;
use std::path::{Path, PathBuf};
use std::process::{Command, Output, Stdio};
use std::{env, fs, thread};

const STRICT: [&str; 4] = ["-Wall", "-Wextra", "-Werror", "-pedantic"];
const EVERY_HEADER: &str = "#include \"depot.h\"\n#include \"depot_card.h\"\n#include \"depot_text.h\"\n#include \"depot.h\"\n";
/// Those that are for every processor.
const PORTABLE: &str = "#include \"depot_card.h\"\n#include \"depot_text.h\"\n";

const CARDS: &str = "tests/c/cards.c";

/// A compiler and a standard.
#[derive(Clone, Copy, Debug)]
struct Compiler {
    program: &'static str,
    standard: &'static str,
}

/// The compilers of this machine with each standard that the headers are for. `cc` must be there.
fn compilers() -> Vec<Compiler> {
    let c = ["-std=c99", "-std=c11", "-std=c17"];
    let cpp = ["-std=c++11", "-std=c++14", "-std=c++17"];
    let programs = [("cc", c), ("gcc", c), ("clang", c), ("c++", cpp), ("g++", cpp), ("clang++", cpp)];
    let installed = |program: &str| Command::new(program).arg("--version").output().is_ok();
    assert!(installed("cc"), "the tests of the headers need a C compiler, cc");
    let installed = programs.into_iter().filter(|(program, _)| installed(program));
    installed.flat_map(|(program, standards)| standards.map(|standard| Compiler { program, standard })).collect()
}

fn top() -> PathBuf {
    Path::new(env!("CARGO_MANIFEST_DIR")).join("..")
}

/// A file for this test alone.
fn file(name: &str) -> PathBuf {
    Path::new(env!("CARGO_TARGET_TMPDIR")).join(name)
}

impl Compiler {
    fn is_cpp(self) -> bool {
        self.program.ends_with("++")
    }

    /// What it says to this text; it is compiled and not linked.
    fn says(self, name: &str, text: &str, options: &[&str]) -> Output {
        let source = file(&format!("{name}{}{}.{}", self.program, self.standard, if self.is_cpp() { "cc" } else { "c" }));
        fs::write(&source, text).expect("the text is written");
        let mut command = Command::new(self.program);
        command.arg(self.standard).args(STRICT).args(options).arg("-S").arg("-o").arg(source.with_extension("s"));
        command.arg("-I").arg(top().join("include")).arg(source).output().expect("the compiler runs")
    }

    /// The program of a file below `host/`, linked with the library.
    fn program(self, source: &str, options: &[&str]) -> PathBuf {
        let name = source.replace(['/', '.'], "-");
        let program = file(&format!("{name}-{}{}{}", self.program, self.standard, options.len()));
        let mut command = Command::new(self.program);
        command.arg(self.standard).args(STRICT).args(options).arg("-I").arg(top().join("include")).arg("-o").arg(&program);
        command.args(["-x", if self.is_cpp() { "c++" } else { "c" }]).arg(top().join("host").join(source));
        let said =
            command.args(["-x", "none"]).arg(top().join("target/staticlib/libdepot.a")).output().expect("the compiler runs");
        assert!(said.status.success(), "{self:?}: {}", String::from_utf8_lossy(&said.stderr));
        program
    }

    fn takes(self, name: &str, text: &str, options: &[&str]) {
        let said = self.says(name, text, options);
        assert!(said.status.success(), "{self:?} {options:?}: {}", String::from_utf8_lossy(&said.stderr));
    }

    /// Refuses the text, and says this.
    fn refuses(self, name: &str, text: &str, options: &[&str], why: &str) {
        let said = self.says(name, text, options);
        let errors = String::from_utf8_lossy(&said.stderr);
        assert!(!said.status.success() && errors.contains(why), "{self:?} {options:?}: {errors}");
    }
}

/// What a program prints for this input. Sanitizers are not to look for leaks, which not every machine lets them do.
fn printed(program: &Path, input: &[u8]) -> String {
    let mut command = Command::new(program);
    command.env("ASAN_OPTIONS", "detect_leaks=0").stdin(Stdio::piped()).stdout(Stdio::piped()).stderr(Stdio::piped());
    let mut child = command.spawn().expect("the program starts");
    let mut stdin = child.stdin.take().expect("a piped input");
    let output = thread::scope(|scope| {
        // a program may leave its input
        scope.spawn(move || stdin.write_all(input).ok());
        child.wait_with_output().expect("the program ends")
    });
    assert!(output.status.success(), "{}: {}", program.display(), String::from_utf8_lossy(&output.stderr));
    String::from_utf8(output.stdout).expect("text")
}

#[test]
fn every_compiler_takes_them() {
    for compiler in compilers() {
        compiler.takes("taken", EVERY_HEADER, &[]);
    }
}

/// A processor of 32 bits, where there is nothing but the compiler.
#[test]
fn cards_and_words_are_for_every_processor() {
    for compiler in compilers() {
        compiler.takes("portable", PORTABLE, &["-m32", "-ffreestanding"]);
    }
}

/// Where there is no archive, the header says for what there is one.
#[test]
fn another_platform_is_refused() {
    for compiler in compilers() {
        for missing in ["-U__x86_64__", "-U__LP64__", "-U__ELF__"] {
            compiler.refuses("platform", EVERY_HEADER, &[missing], "the library is for x86-64 with 64-bit pointers");
        }
    }
}

/// An answer that is left is warned of.
#[test]
fn an_answer_must_be_used() {
    let calls = |claim: &str| {
        format!("{EVERY_HEADER}uint32_t claimed(struct depot_desk *desk);\nuint32_t claimed(struct depot_desk *desk)\n{{\n{claim}\n}}\n")
    };
    for compiler in compilers() {
        compiler.takes("used", &calls("return depot_desk_claim(desk, 0, 1);"), &[]);
        compiler.refuses("left", &calls("depot_desk_claim(desk, 0, 1);\nreturn 0;"), &[], "unused-result");
    }
}

/// A compiler that lays structs out otherwise is stopped.
#[test]
fn another_layout_is_refused() {
    for compiler in compilers() {
        compiler.refuses("layout", EVERY_HEADER, &["-fpack-struct"], "depot_reading_has_264_bytes");
    }
}

/// The cards of random sheets, and of twenty jobs one behind the other.
fn real_cards(random: &mut Random) -> Vec<Vec<u8>> {
    let chain = |job: usize| Job { label_len: 1, modules: 1, minutes: 1440, earlier: (1 << job) >> 1, ..Job::default() };
    let mut planned = vec![Sheet::of(64, (0..MOST_JOBS).map(chain).collect())];
    planned.extend((0..1_000).map(|_| sheets::resting(random)));
    let card = |sheet: Sheet| {
        let mut card = vec![0; card_length(sheet.jobs.len())];
        plan(&sheet.bytes(), &mut card, &mut []).expect("the sheet is planned");
        card
    };
    planned.into_iter().map(card).collect()
}

/// Rows of any bytes, so that every bit of every figure occurs, behind a trailer that fits them.
fn any_cards(random: &mut Random) -> Vec<Vec<u8>> {
    let card = |n: usize, random: &mut Random| {
        let mut card = vec![0; card_length(n)];
        random.fill(&mut card);
        let trailer = card.len() - 8;
        card[trailer..trailer + 4].copy_from_slice(&(12 * n as u32).to_le_bytes());
        card[trailer + 6..].copy_from_slice(&(n as u16).to_le_bytes());
        card
    };
    (0..1_000).map(|turn| card(turn % (MOST_JOBS + 1), random)).collect()
}

/// A card with a byte changed, or with some too few or too many.
fn spoilt(random: &mut Random, card: &[u8]) -> Vec<u8> {
    let mut bytes = card.to_vec();
    match random.place(3) {
        0 => bytes.truncate(random.place(card.len())),
        1 => bytes.push(0),
        _ => {
            let place = card.len() - 1 - random.place(8);
            bytes[place] ^= 1 << random.place(8);
        }
    }
    bytes
}

/// The line of `tests/c/cards.c` for some bytes, by the wrapper's decoder.
fn decoded(bytes: &[u8]) -> String {
    let Some(card) = Card::of(bytes).filter(|_| bytes.len() <= LONGEST_CARD) else { return "no card\n".into() };
    let mut line = format!("{} {}", card.rows.len(), card.end);
    card.order.iter().for_each(|job| write!(line, " {job}").unwrap());
    card.rows.iter().for_each(|row| write!(line, " {}-{}:{:x}", row.start, row.end, row.modules).unwrap());
    line + "\n"
}

/// Cards, and bytes that are none.
fn cards() -> Vec<Vec<u8>> {
    let mut random = Random::new(1);
    let mut cards = [real_cards(&mut random), any_cards(&mut random)].concat();
    cards.extend(cards.clone().iter().map(|card| spoilt(&mut random, card)));
    cards.push([vec![0; 12 * 21 + 21], vec![252, 0, 0, 0, 0, 0, 21, 0]].concat());
    cards
}

/// Cards as `tests/c/cards.c` takes them.
fn stream(cards: &[Vec<u8>]) -> Vec<u8> {
    cards.iter().flat_map(|card| [&(card.len() as u16).to_le_bytes()[..], card].concat()).collect()
}

/// What `depot_card.h` reads from cards is what the wrapper's decoder does, and it knows bytes that are none.
#[test]
fn cards_are_read_as_the_wrapper_reads_them() {
    let cards = cards();
    let expected: Vec<String> = cards.iter().map(|card| decoded(card)).collect();
    let none = expected.iter().filter(|line| *line == "no card\n").count();
    assert!(none > 1_000 && cards.len() - none > 2_000, "{none} of {} are no cards", cards.len());
    for compiler in compilers() {
        let lines = printed(&compiler.program(CARDS, &[]), &stream(&cards));
        assert!(lines == expected.concat(), "{compiler:?} prints other lines");
    }
}

/// Where a compiler has sanitizers, the programs in C run clean under them. They do not see into the library: pages that may not be
/// touched lie beside what it is lent in the other tests.
#[test]
fn programs_are_clean_under_sanitizers() {
    const SANITIZED: [&str; 2] = ["-fsanitize=address,undefined", "-fno-sanitize-recover=all"];
    let nothing = file("nothing.c");
    fs::write(&nothing, "int main(void)\n{\n    return 0;\n}\n").expect("a program");
    for compiler in compilers().into_iter().filter(|compiler| compiler.standard == "-std=c99") {
        let linked = Command::new(compiler.program).args(SANITIZED).arg(&nothing).arg("-o").arg(file("nothing")).output();
        if !linked.expect("the compiler runs").status.success() {
            continue;
        }
        for (source, input) in [("c/example.c", vec![]), ("c/follow.c", vec![]), (CARDS, stream(&cards()))] {
            assert!(!printed(&compiler.program(source, &SANITIZED), &input).is_empty(), "{compiler:?} {source}");
        }
    }
}

/// The words of `depot_text.h` are the wrapper's.
#[test]
fn refusals_have_the_wrapper_s_words() {
    let words = (1..).map_while(Refusal::of_number).map(|refusal| refusal.to_string());
    let no_refusal = ["no such refusal"; 2].map(String::from);
    let expected: Vec<String> = ["done".to_string()].into_iter().chain(words).chain(no_refusal).collect();
    assert_eq!(expected.len(), 29);
    for compiler in compilers() {
        assert_eq!(
            printed(&compiler.program("tests/c/refusals.c", &[]), b"").lines().collect::<Vec<_>>(),
            expected,
            "{compiler:?}"
        );
    }
}
