//! Compares the proved library with the Rust reference, and records samples of the reference's
//! answers. tests/README.md says how to run it and how to add a suite.

mod automaton;
mod bench;
mod convert;
mod damage;
mod hard;
mod library;
mod markup;
mod names;
mod prng;
mod published;
mod record;
mod refusals;
mod schema;
mod stack;
mod suite;
mod survey;

use std::path::Path;
use std::process::ExitCode;

/// Runs a suite; false where anything differs.
type Run = fn() -> bool;

/// Every suite by its name.
const SUITES: &[(&str, Run)] = &[
    ("names", || suite::run(&names::Names)),
    ("markup", || suite::run(&markup::Markup)),
    ("schema", || suite::run(&schema::Schemas)),
    ("convert", || suite::run(&convert::Conversions)),
    ("stack", stack::run),
];

/// Writes recorded answers into a folder; false where that fails.
type Record = fn(&Path) -> bool;

/// What is recorded for crates/test_NAME, by NAME.
const RECORDS: &[(&str, Record)] = &[
    ("names", names::record::write),
    ("markup", markup::record::write),
    ("schema", schema::record::write),
    ("source", convert::record::write),
];

/// Does what the command line says; false where anything differs or fails.
fn command(words: &[&str]) -> bool {
    match words {
        ["record", folder] => {
            RECORDS.iter().all(|(name, write)| write(&Path::new(folder).join(format!("test_{name}"))))
        }
        ["survey"] => survey::run(),
        ["bench"] => bench::run(),
        // Every suite runs, also after one that differs.
        ["all"] => SUITES.iter().fold(true, |well, (_, run)| run() & well),
        [name] if SUITES.iter().any(|s| s.0 == *name) => SUITES.iter().all(|s| s.0 != *name || s.1()),
        _ => {
            eprintln!("usage: compare all | SUITE | survey | bench | record FOLDER");
            false
        }
    }
}

fn main() -> ExitCode {
    suite::silence_panics();
    let words: Vec<String> = std::env::args().skip(1).collect();
    let words: Vec<&str> = words.iter().map(String::as_str).collect();
    if command(&words) {
        ExitCode::SUCCESS
    } else {
        ExitCode::FAILURE
    }
}
