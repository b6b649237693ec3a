//! Links the static library: from the folder that SANTOFUNYE_LIB names, or the repository's own.

use std::env;
use std::path::{Path, PathBuf};

fn main() {
    println!("cargo::rerun-if-env-changed=SANTOFUNYE_LIB");
    let root = Path::new(&env::var("CARGO_MANIFEST_DIR").expect("set by cargo")).join("..");
    let named = env::var_os("SANTOFUNYE_LIB").map(PathBuf::from);
    let folder = root.join(named.unwrap_or_else(|| "target/staticlib".into()));
    let archive = folder.join("libsimplifier.a");
    println!("cargo::rerun-if-changed={}", archive.display());
    if !archive.exists() {
        println!(
            "cargo::error=no {}: `tools/staticlib` in the repository's root makes it",
            archive.display()
        );
    }
    println!("cargo::rustc-link-search=native={}", folder.display());
    println!("cargo::rustc-link-lib=static=simplifier");
}
