//! Links the static library of the proved crates, and to tests and benchmark the reader of before.
use std::path::Path;
use std::{env, process};

const LIBRARY: &str = "libdepot.a";
const READER_OF_BEFORE: &str = "libtwo_pass.a";

fn main() {
    let package = env::var("CARGO_MANIFEST_DIR").expect("cargo names the package's folder");
    let folder = Path::new(&package).join("../target/staticlib");
    let library = folder.join(LIBRARY);
    println!("cargo:rerun-if-changed={}", library.display());
    if env::var("CARGO_CFG_TARGET_ARCH").as_deref() != Ok("x86_64") {
        refuse("the static library is compiled for x86-64 alone");
    }
    if !library.is_file() {
        refuse("target/staticlib/libdepot.a is missing: make it with 'tools/staticlib depot'");
    }
    println!("cargo:rustc-link-search=native={}", folder.display());
    println!("cargo:rustc-link-lib=static=depot");
    // made by 'tools/staticlib two_pass'; the command line does without it
    let before = folder.join(READER_OF_BEFORE);
    if before.is_file() {
        println!("cargo:rerun-if-changed={}", before.display());
    }
    println!("cargo:rustc-link-arg-tests={}", before.display());
    println!("cargo:rustc-link-arg-bin=bench={}", before.display());
}

fn refuse(why: &str) -> ! {
    eprintln!("depot-host: {why}");
    process::exit(1)
}
