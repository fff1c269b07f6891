//! Writes the module tree that IronRDP's files expect around them (`crate::rdp6::rle`, `crate::rdp6::bitmap_stream`), with the
//! paths of the files themselves: they are compiled where they lie and never copied.

use std::path::{Path, PathBuf};
use std::{env, fs, process};

/// The folder that holds crates/ironrdp-graphics.
fn source_folder() -> PathBuf {
    println!("cargo:rerun-if-env-changed=RDP6_RUST_SOURCE");
    match env::var_os("RDP6_RUST_SOURCE") {
        Some(folder) if !folder.is_empty() => PathBuf::from(folder),
        _ => Path::new(&env::var_os("CARGO_MANIFEST_DIR").unwrap()).join("../../../../shared/docs/src"),
    }
}

/// The absolute path of one of IronRDP's files.
fn file_of(folder: &Path, name: &str) -> PathBuf {
    let file = folder.join("crates/ironrdp-graphics/src").join(name);
    println!("cargo:rerun-if-changed={}", file.display());
    fs::canonicalize(&file).unwrap_or_else(|why| {
        eprintln!("IronRDP is missing: {} ({why}).", file.display());
        eprintln!("Set RDP6_RUST_SOURCE to the folder that holds crates/ironrdp-graphics of the repository");
        eprintln!("Devolutions/IronRDP at commit 7793f5232a.");
        process::exit(1)
    })
}

/// The module tree. The decoder's file is included instead of named, so that functions of ours can stand beside it in its
/// module and use what is private there. The modules are public as in IronRDP's crate, for a program that is written for it.
fn modules(rle: &Path, decoder: &Path, beside: &Path, encoder: &Path) -> String {
    // What nothing here calls would be warned of, in files that are not ours to change.
    format!(
        "#[allow(dead_code)]
pub mod rdp6 {{
    #[path = {rle:?}]
    pub mod rle;
    pub mod bitmap_stream {{
        pub mod decoder {{
            include!({decoder:?});
            include!({beside:?});
        }}
        #[path = {encoder:?}]
        pub mod encoder;
    }}
}}
"
    )
}

fn main() {
    let folder = source_folder();
    let rle = file_of(&folder, "rdp6/rle.rs");
    let decoder = file_of(&folder, "rdp6/bitmap_stream/decoder.rs");
    let encoder = file_of(&folder, "rdp6/bitmap_stream/encoder.rs");
    let beside = Path::new(&env::var_os("CARGO_MANIFEST_DIR").unwrap()).join("src/beside_decoder.rs");
    let out = PathBuf::from(env::var_os("OUT_DIR").unwrap()).join("modules.rs");
    fs::write(out, modules(&rle, &decoder, &beside, &encoder)).unwrap();
}
