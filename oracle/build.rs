//! Checks the lent Rust files against SHA256SUMS and tells lib.rs where each one is:
//! LENT_interval is the path of interval.rs. A file that is not in the list has no such name.

use std::path::Path;
use std::process::Command;
use std::{env, fs};

const SUMS: &str = "SHA256SUMS";

fn main() {
    println!("cargo::rerun-if-env-changed=SEDONA_SRC");
    println!("cargo::rerun-if-changed={SUMS}");
    let folder = env::var("SEDONA_SRC").expect("SEDONA_SRC names the folder of the lent files");
    let folder = fs::canonicalize(folder).expect("SEDONA_SRC is a folder");
    check(&folder);
    let sums = fs::read_to_string(SUMS).expect("SHA256SUMS can be read");
    for file in sums.lines().filter_map(|line| line.split("  ").nth(1)) {
        tell(&folder.join(file));
    }
}

/// Fails the build unless every listed file has its checksum.
fn check(folder: &Path) {
    let sums = fs::canonicalize(SUMS).expect("SHA256SUMS is there");
    let check = Command::new("sha256sum")
        .args(["--check", "--quiet", "--strict"])
        .arg(sums)
        .current_dir(folder)
        .output()
        .expect("sha256sum can be run");
    if !check.status.success() {
        let files = String::from_utf8_lossy(&check.stdout);
        let files: Vec<&str> = files.lines().collect();
        println!("cargo::error=not the files of {SUMS}: {}", files.join(", "));
    }
}

/// Names a lent file for lib.rs, and has the build run again where the file changes.
fn tell(file: &Path) {
    let name = file.file_stem().expect("a Rust file").display();
    println!("cargo::rerun-if-changed={}", file.display());
    println!("cargo::rustc-env=LENT_{name}={}", file.display());
}
