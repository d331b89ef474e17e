//! Links the proved static libraries: SBE_LIBRARIES, or where `bin/build` writes them.

use std::env;
use std::path::{Path, PathBuf};

const LIBRARIES: [&str; 2] = ["sbe", "probe"];

fn main() {
    println!("cargo:rerun-if-env-changed=SBE_LIBRARIES");
    let folder = match env::var_os("SBE_LIBRARIES") {
        Some(folder) => PathBuf::from(folder),
        None => Path::new(env!("CARGO_MANIFEST_DIR")).join("../../target/staticlib"),
    };
    for name in LIBRARIES {
        let archive = folder.join(format!("lib{name}.a"));
        let archive = archive
            .canonicalize()
            .unwrap_or_else(|e| panic!("{}: {e} (bin/build {name} writes it)", archive.display()));
        println!("cargo:rerun-if-changed={}", archive.display());
        println!("cargo:rustc-link-arg={}", archive.display());
    }
}
