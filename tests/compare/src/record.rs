//! Recorded answers of the reference, which a proved program replays without Rust: a line of `stdin`
//! for each question, a line of `stdout` for each answer. The library is never called for them.

use std::fs;
use std::path::Path;

/// A replaying program reads no more than this.
const MOST_BYTES: usize = 65_535;

pub fn hex(bytes: &[u8]) -> String {
    bytes.iter().map(|b| format!("{b:02x}")).collect()
}

/// The line of a document.
pub fn question(document: &[u8]) -> String {
    format!("{:04x} {}\n", document.len(), hex(document))
}

/// Writes `stdin` and `stdout` into a folder.
pub fn write(folder: &Path, questions: Vec<String>, answers: Vec<String>) -> bool {
    let (stdin, stdout) = (questions.concat(), answers.concat());
    assert!(stdin.len() <= MOST_BYTES, "{} bytes are more than a program reads", stdin.len());
    let written = fs::create_dir_all(folder)
        .and_then(|()| fs::write(folder.join("stdin"), stdin))
        .and_then(|()| fs::write(folder.join("stdout"), stdout));
    println!("{}: {} answers recorded", folder.display(), answers.len());
    written.is_ok()
}
