//! Tells the benchmarks where the proved static libraries are; they alone ask for them, by the feature `rattle`.
use std::{env, path::Path, path::PathBuf};

/// The crates that are built as static libraries.
const EXPORTS: [&str; 2] = ["sha1_exports", "tis_exports"];

fn main() {
    println!("cargo:rerun-if-changed=build.rs");
    if env::var_os("CARGO_FEATURE_RATTLE").is_none() {
        return;
    }
    // STATICLIB: other builds of them, as the survey of mutants makes
    println!("cargo:rerun-if-env-changed=STATICLIB");
    let crates = Path::new(&env::var("CARGO_MANIFEST_DIR").unwrap()).join("../crates");
    for name in EXPORTS {
        let folder = env::var("STATICLIB").map_or(crates.join(name).join("out"), PathBuf::from);
        let archive = folder.join(format!("lib{name}.a"));
        println!("cargo:rerun-if-changed={}", archive.display());
        println!("cargo:rustc-link-search=native={}", folder.display());
    }
}
