//! Links the archives that `rt lib` writes in crates/nahypora and crates/bench_exports, each in the folder out/ of its
//! crate. BPE_STATICLIB names another folder that has both.
use std::env;
use std::path::PathBuf;

fn main() {
    println!("cargo:rerun-if-env-changed=BPE_STATICLIB");
    let crates = PathBuf::from(env::var("CARGO_MANIFEST_DIR").unwrap()).join("../../crates");
    for name in ["nahypora", "bench_exports"] {
        let folder = env::var("BPE_STATICLIB").map(PathBuf::from).unwrap_or_else(|_| crates.join(name).join("out"));
        println!("cargo:rustc-link-search=native={}", folder.display());
        println!("cargo:rerun-if-changed={}", folder.join(format!("lib{name}.a")).display());
        println!("cargo:rustc-link-lib=static={name}");
    }
}
