//! Writes the modules that include the original's files, unchanged, from the folder that BPE_ORIGINAL names: the one
//! with the six files, or one above it that has them in crates/bpe/src.
use std::env;
use std::fmt::Write;
use std::fs;
use std::path::{Path, PathBuf};

const FILES: [&str; 6] = [
    "bitfield",
    "byte_pair_encoding",
    "backtrack_encoder",
    "appendable_encoder",
    "prependable_encoder",
    "interval_encoding",
];

/// What the comparison looks at and the original keeps to itself: it stands beside the included text, in its module.
fn probes(name: &str) -> &'static str {
    match name {
        "byte_pair_encoding" => include_str!("src/probes.rs"),
        "appendable_encoder" => include_str!("src/probes_append.rs"),
        "prependable_encoder" => include_str!("src/probes_prepend.rs"),
        "interval_encoding" => include_str!("src/probes_interval.rs"),
        _ => "",
    }
}

fn main() {
    println!("cargo:rerun-if-env-changed=BPE_ORIGINAL");
    println!("cargo:rerun-if-changed=src");
    let given = env::var("BPE_ORIGINAL")
        .unwrap_or_else(|_| panic!("set BPE_ORIGINAL to the folder with the original's six files"));
    let given = fs::canonicalize(&given).unwrap_or_else(|e| panic!("{given}: {e}"));
    let folder: PathBuf = [given.clone(), given.join("crates/bpe/src")]
        .into_iter()
        .find(|f| f.join("byte_pair_encoding.rs").is_file())
        .unwrap_or_else(|| panic!("no byte_pair_encoding.rs below {}", given.display()));
    let mut text = String::new();
    for name in FILES {
        let file = folder.join(format!("{name}.rs"));
        println!("cargo:rerun-if-changed={}", file.display());
        let path = file.display().to_string();
        writeln!(text, "pub mod {name} {{ include!({path:?}); {} }}", probes(name)).unwrap();
    }
    let out = env::var("OUT_DIR").unwrap();
    fs::write(Path::new(&out).join("modules.rs"), text).unwrap();
}
