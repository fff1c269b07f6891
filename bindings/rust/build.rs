//! Links the static library: the one that `RDP6_LIBRARY` names, or the one that `scripts/make-library` writes in this repository.

use std::path::{Path, PathBuf};
use std::{env, fs, process};

const SETTING: &str = "RDP6_LIBRARY";
const PLACE: &str = "../../target/staticlib/librdp6.a";

fn stop(file: &Path, why: &str) -> ! {
    eprintln!("The library librdp6.a cannot be linked: {} ({why}).", file.display());
    eprintln!(
        "Make it with `scripts/make-library` at the top of the rdp6 repository, or set {SETTING} to its absolute path."
    );
    process::exit(1)
}

fn library() -> PathBuf {
    println!("cargo:rerun-if-env-changed={SETTING}");
    match env::var_os(SETTING).map(PathBuf::from) {
        Some(file) if file.as_os_str().is_empty() => default_place(),
        // Cargo runs this program in the crate's folder, not in the folder that the path is relative to.
        Some(file) if file.is_relative() => stop(&file, &format!("{SETTING} must be an absolute path")),
        Some(file) => file,
        None => default_place(),
    }
}

fn default_place() -> PathBuf {
    let folder = env::var_os("CARGO_MANIFEST_DIR").expect("cargo sets CARGO_MANIFEST_DIR");
    Path::new(&folder).join(PLACE)
}

fn main() {
    println!("cargo:rerun-if-changed=build.rs");
    let given = library();
    println!("cargo:rerun-if-changed={}", given.display());
    let file = fs::canonicalize(&given).unwrap_or_else(|why| stop(&given, &why.to_string()));
    let name = file.file_name().and_then(|name| name.to_str()).unwrap_or("");
    let name = name
        .strip_prefix("lib")
        .and_then(|name| name.strip_suffix(".a"))
        .unwrap_or_else(|| stop(&file, "its name must have the form libNAME.a"));
    let folder = file.parent().expect("a file lies in a folder");
    println!("cargo:rustc-link-search=native={}", folder.display());
    println!("cargo:rustc-link-lib=static={name}");
}
