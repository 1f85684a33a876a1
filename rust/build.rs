//! Links the archive that `tools/archive` made: in `target/native` of the repository, or in the folder that NOONHAGGLE_LIB names.
use std::{env, path::PathBuf};

fn main() {
    let ours = PathBuf::from(env::var("CARGO_MANIFEST_DIR").unwrap()).join("../target/native");
    let folder = env::var("NOONHAGGLE_LIB").map(PathBuf::from).unwrap_or(ours);
    println!("cargo:rerun-if-env-changed=NOONHAGGLE_LIB");
    println!("cargo:rerun-if-changed={}", folder.join("libnoonhaggle.a").display());
    println!("cargo:rustc-link-search=native={}", folder.display());
    println!("cargo:rustc-link-lib=static=noonhaggle");
}
