//! Runs `depot` from the repository's top and looks at what it says.
use std::fs;
use std::io::Write;
use std::path::{Path, PathBuf};
use std::process::{self, Command, Stdio};
use std::sync::atomic::{AtomicUsize, Ordering};

/// What a run gave.
#[derive(Debug, PartialEq, Eq)]
pub struct Run {
    pub status: i32,
    pub output: Vec<u8>,
    pub errors: String,
}

impl Run {
    pub fn text(&self) -> String {
        String::from_utf8(self.output.clone()).expect("text on standard output")
    }
}

pub fn top() -> PathBuf {
    Path::new(env!("CARGO_MANIFEST_DIR")).parent().expect("the repository's top").to_path_buf()
}

/// Runs a program with this input.
pub fn run(program: &Path, words: &[&str], input: &[u8]) -> Run {
    let mut child = Command::new(program)
        .args(words)
        .current_dir(top())
        .env_remove("NO_COLOR")
        .stdin(Stdio::piped())
        .stdout(Stdio::piped())
        .stderr(Stdio::piped())
        .spawn()
        .expect("the program starts");
    let mut stdin = child.stdin.take().expect("a piped input");
    // a program that refuses its words does not read its input
    stdin.write_all(input).ok();
    drop(stdin);
    let output = child.wait_with_output().expect("the program ends");
    Run {
        status: output.status.code().expect("an exit status"),
        output: output.stdout,
        errors: String::from_utf8(output.stderr).expect("text on standard error"),
    }
}

/// Runs `depot`.
pub fn depot(words: &[&str], input: &[u8]) -> Run {
    run(Path::new(env!("CARGO_BIN_EXE_depot")), words, input)
}

/// A file in a folder of its own: tests run side by side.
pub fn file(name: &str, bytes: &[u8]) -> String {
    static COUNT: AtomicUsize = AtomicUsize::new(0);
    let own = format!("{}-{}", process::id(), COUNT.fetch_add(1, Ordering::Relaxed));
    let folder = Path::new(env!("CARGO_TARGET_TMPDIR")).join(own);
    fs::create_dir_all(&folder).expect("a folder for the tests' files");
    let path = folder.join(name);
    fs::write(&path, bytes).expect("the file is written");
    path.to_str().expect("a path in UTF-8").into()
}
