//! Writes the root of the reference: a module for each of its files, at the place where the files
//! are. Nothing of the reference is copied into the repository.

use std::path::{Path, PathBuf};
use std::{env, fs};

const MODULES: [&str; 4] = ["errors", "saxlite", "xmlschema", "xmltoproto"];

/// The folder of the reference's files: SBE_REFERENCE, or where the documents stand beside the
/// repository.
fn sources() -> PathBuf {
    println!("cargo:rerun-if-env-changed=SBE_REFERENCE");
    match env::var_os("SBE_REFERENCE") {
        Some(folder) => PathBuf::from(folder),
        None => Path::new(env!("CARGO_MANIFEST_DIR")).join("../../../shared/docs/src"),
    }
}

fn main() {
    let folder = sources();
    let mut root = String::new();
    for module in MODULES {
        let file = folder.join(format!("src--crates--protowire-sbe--src--{module}.rs.txt"));
        let file = file.canonicalize().unwrap_or_else(|e| panic!("{}: {e}", file.display()));
        println!("cargo:rerun-if-changed={}", file.display());
        root += &format!("#[path = {file:?}]\npub mod {module};\n");
    }
    let out = PathBuf::from(env::var_os("OUT_DIR").expect("cargo sets OUT_DIR"));
    fs::write(out.join("modules.rs"), root).expect("the root module is written");
}
