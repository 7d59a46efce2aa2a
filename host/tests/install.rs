//! `install.sh`: what it puts where, a controller compiled against it, and that it takes everything away again.
use std::collections::BTreeSet;
use std::os::unix::fs::PermissionsExt;
use std::path::{Path, PathBuf};
use std::process::{Command, Output};
use std::{env, fs};

/// What it installs below the prefix, and the files' modes.
const INSTALLED: [(&str, u32); 10] = [
    ("bin/depot", 0o755),
    ("include/depot.h", 0o644),
    ("include/depot_card.h", 0o644),
    ("include/depot_text.h", 0o644),
    ("lib/libdepot.a", 0o644),
    ("lib/pkgconfig/depot.pc", 0o644),
    ("share/bash-completion/completions/depot", 0o644),
    ("share/fish/vendor_completions.d/depot.fish", 0o644),
    ("share/man/man1/depot.1", 0o644),
    ("share/zsh/site-functions/_depot", 0o644),
];

fn top() -> PathBuf {
    Path::new(env!("CARGO_MANIFEST_DIR")).parent().expect("the repository's top").to_path_buf()
}

/// An empty folder.
fn folder(name: &str) -> PathBuf {
    let folder = Path::new(env!("CARGO_TARGET_TMPDIR")).join(name);
    fs::remove_dir_all(&folder).ok();
    fs::create_dir_all(&folder).expect("a folder");
    folder
}

/// Runs the script with these words and this prefix, below a folder where one is given.
fn install(words: &[&str], prefix: &Path, below: Option<&Path>) -> Output {
    let mut command = Command::new(top().join("install.sh"));
    command.args(words).env("PREFIX", prefix).env_remove("DESTDIR").env("COMMAND", env!("CARGO_BIN_EXE_depot"));
    below.map(|folder| command.env("DESTDIR", folder));
    command.output().expect("the script runs")
}

fn done(output: Output) -> String {
    assert!(output.status.success(), "{}", String::from_utf8_lossy(&output.stderr));
    String::from_utf8(output.stdout).expect("text")
}

/// The files below a folder.
fn files(folder: &Path) -> BTreeSet<PathBuf> {
    let entries = fs::read_dir(folder).expect("a folder").map(|entry| entry.expect("an entry").path());
    entries.flat_map(|path| if path.is_dir() { files(&path) } else { BTreeSet::from([path]) }).collect()
}

/// The compiler's flags that a file for pkg-config gives, with its variables put in.
fn flags(file: &Path) -> Vec<String> {
    let text = fs::read_to_string(file).expect("a file for pkg-config");
    let mut variables: Vec<(String, String)> = Vec::new();
    let mut flags = Vec::new();
    for line in text.lines() {
        let line = variables.iter().fold(line.to_string(), |line, (name, value)| line.replace(&format!("${{{name}}}"), value));
        if let Some(words) = line.strip_prefix("Cflags: ").or(line.strip_prefix("Libs: ")) {
            flags.extend(words.split(" -").map(|word| format!("-{}", word.trim_start_matches('-'))));
        } else if let Some((name, value)) = line.split_once('=') {
            variables.push((name.into(), value.into()));
        }
    }
    flags
}

/// A compiler finds header and library by the flags, and the controller runs.
fn controller_runs(prefix: &Path) {
    let flags = flags(&prefix.join("lib/pkgconfig/depot.pc"));
    let program = prefix.join("follow");
    let compiled = Command::new("cc")
        .args(["-std=c99", "-Wall", "-Wextra", "-Werror", "-pedantic", "-o"])
        .arg(&program)
        .arg(top().join("host/c/follow.c"))
        .args(&flags)
        .output()
        .expect("cc runs");
    done(compiled);
    let followed = done(Command::new(&program).output().expect("the controller runs"));
    assert!(followed.contains("the yard goes from"), "{followed}");
    fs::remove_file(program).expect("it is there");
}

/// pkg-config, where it is installed, gives the same version and flags.
fn pkg_config_agrees(prefix: &Path) {
    let ask =
        |words: &[&str]| Command::new("pkg-config").args(words).env("PKG_CONFIG_PATH", prefix.join("lib/pkgconfig")).output();
    let Ok(version) = ask(&["--modversion", "depot"]) else { return };
    assert_eq!(done(version).trim(), env!("CARGO_PKG_VERSION"));
    let said = done(ask(&["--cflags", "--libs", "depot"]).expect("it ran before"));
    let expected = flags(&prefix.join("lib/pkgconfig/depot.pc")).join(" ");
    assert_eq!(said.split_whitespace().collect::<Vec<_>>().join(" "), expected);
}

#[test]
fn what_is_installed_compiles_and_goes_again() {
    let prefix = folder("install-own");
    let said = done(install(&[], &prefix, None));
    let expected: BTreeSet<PathBuf> = INSTALLED.iter().map(|(file, _)| prefix.join(file)).collect();
    assert_eq!(files(&prefix), expected);
    assert_eq!(said.lines().map(PathBuf::from).collect::<BTreeSet<_>>(), expected, "it says what it puts where");
    for (file, mode) in INSTALLED {
        let permissions = fs::metadata(prefix.join(file)).expect("it is there").permissions();
        assert_eq!(permissions.mode() & 0o777, mode, "{file}");
    }
    controller_runs(&prefix);
    pkg_config_agrees(&prefix);
    let version = done(Command::new(prefix.join("bin/depot")).arg("--version").output().expect("the command line runs"));
    assert!(version.starts_with(concat!("depot ", env!("CARGO_PKG_VERSION"))), "{version}");

    done(install(&["install"], &prefix, None));
    assert_eq!(files(&prefix), expected, "twice is once");
    done(install(&["uninstall"], &prefix, None));
    assert_eq!(files(&prefix), BTreeSet::new());
    assert_eq!(done(install(&["uninstall"], &prefix, None)), "", "nothing is left to remove");
}

/// A package is made below another folder, which no file names.
#[test]
fn below_another_folder() {
    let below = folder("install a package");
    done(install(&[], Path::new("/opt/depot"), Some(&below)));
    let expected: BTreeSet<PathBuf> = INSTALLED.iter().map(|(file, _)| below.join("opt/depot").join(file)).collect();
    assert_eq!(files(&below), expected);
    let flags = flags(&below.join("opt/depot/lib/pkgconfig/depot.pc"));
    assert_eq!(flags, ["-I/opt/depot/include", "-L/opt/depot/lib", "-ldepot"]);
    done(install(&["uninstall"], Path::new("/opt/depot"), Some(&below)));
    assert_eq!(files(&below), BTreeSet::new());
}

#[test]
fn what_it_refuses() {
    let prefix = folder("install-refused");
    assert!(done(install(&["--help"], &prefix, None)).contains("PREFIX"));
    let alone = folder("install-alone");
    fs::copy(top().join("install.sh"), alone.join("install.sh")).expect("a copy");
    let of_nothing =
        Command::new(alone.join("install.sh")).env("PREFIX", &prefix).env_remove("COMMAND").output().expect("it runs");
    for (ran, why) in [
        (install(&["instal"], &prefix, None), "there is no 'instal'"),
        (install(&["install", "twice"], &prefix, None), "one word at the most"),
        (install(&[], Path::new("own"), None), "it must begin with /"),
        (of_nothing, "libdepot.a is missing: './depot --version' makes it"),
    ] {
        let errors = String::from_utf8_lossy(&ran.stderr).into_owned();
        assert!(ran.status.code() == Some(2) && errors.contains(why), "{errors}");
    }
    assert_eq!(files(&prefix), BTreeSet::new());
}
