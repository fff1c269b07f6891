//! Links librdp6.a, whose path is the setting RDP6_LIBRARY.

use std::path::{Path, PathBuf};
use std::{env, fs, process};

fn library() -> PathBuf {
    println!("cargo:rerun-if-env-changed=RDP6_LIBRARY");
    match env::var_os("RDP6_LIBRARY") {
        Some(file) if !file.is_empty() => PathBuf::from(file),
        _ => Path::new(&env::var_os("CARGO_MANIFEST_DIR").unwrap()).join("../../../target/staticlib/librdp6.a"),
    }
}

fn stop(file: &Path, why: &str) -> ! {
    eprintln!("The library cannot be linked: {} ({why}).", file.display());
    eprintln!("Make it with `scripts/make-library` at the top of the repository, or set RDP6_LIBRARY to its path.");
    process::exit(1)
}

fn main() {
    let given = library();
    println!("cargo:rerun-if-changed={}", given.display());
    let file = fs::canonicalize(&given).unwrap_or_else(|why| stop(&given, &why.to_string()));
    let name = file.file_name().and_then(|name| name.to_str()).unwrap_or("");
    let Some(name) = name.strip_prefix("lib").and_then(|name| name.strip_suffix(".a")) else {
        stop(&file, "its name is not of the form libNAME.a")
    };
    println!("cargo:rustc-link-search=native={}", file.parent().unwrap().display());
    println!("cargo:rustc-link-lib=static={name}");
}
