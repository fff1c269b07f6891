//! The examples print exactly what those in C print.

use std::path::Path;
use std::process::Command;
use std::{env, fs};

/// What an example prints, run by cargo in a folder of its own.
fn printed(name: &str) -> String {
    let folder = Path::new(env!("CARGO_TARGET_TMPDIR")).join(format!("example-{name}"));
    fs::create_dir_all(&folder).expect("a folder to run in");
    let manifest = Path::new(env!("CARGO_MANIFEST_DIR")).join("Cargo.toml");
    let mut cargo = Command::new(env::var_os("CARGO").unwrap_or("cargo".into()));
    cargo.args(["run", "--quiet", "--offline", "--locked", "--example", name, "--manifest-path"]).arg(manifest);
    let output = cargo.current_dir(folder).output().expect("cargo");
    assert!(output.status.success(), "{}", String::from_utf8_lossy(&output.stderr));
    String::from_utf8(output.stdout).expect("text")
}

fn expected(name: &str) -> String {
    let file = Path::new(env!("CARGO_MANIFEST_DIR")).join(format!("../../examples/{name}.expected"));
    fs::read_to_string(&file).unwrap_or_else(|why| {
        panic!("{} cannot be read: {why}. This test needs the complete repository.", file.display())
    })
}

#[test]
fn plane() {
    assert_eq!(printed("plane"), expected("plane"));
}

#[test]
fn overlay() {
    assert_eq!(printed("overlay"), expected("overlay"));
}

#[test]
fn picture() {
    assert_eq!(printed("picture"), expected("picture"));
}

#[test]
fn round_trip() {
    assert_eq!(printed("round_trip"), expected("round_trip"));
}
