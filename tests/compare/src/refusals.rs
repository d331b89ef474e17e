//! The numbers of docs/REFUSALS.md for the errors of the reference, which has only sentences.

use reference::errors::SbeError;
use reference::saxlite::SaxError;

/// Where the reference panics (33).
pub const MISPLACED_FIELD: u32 = 33;

/// Sentences by how they begin. A name may follow.
const SENTENCES: &[(&str, u32)] = &[
    ("unterminated comment", 11),
    ("unterminated processing instruction", 12),
    ("unterminated declaration", 13),
    ("expected '>' to end close tag", 14),
    ("expected tag name after '<'", 15),
    ("unterminated tag", 16),
    ("expected attribute name", 17),
    ("expected '=' after attribute ", 18),
    ("expected quoted value for attribute ", 19),
    ("unterminated attribute value", 20),
    ("sbe-xml: close mismatch: ", 30),
    ("sbe-xml: unclosed elements: ", 31),
    ("sbe-xml: invalid uint value ", 32),
];

/// Sentences of the generator, which have no offset.
const ARRAYS: &[(&str, u32)] = &[("sbe: composite ", 40), ("sbe: message ", 41)];

fn number(sentence: &str, known: &[(&str, u32)]) -> Option<u32> {
    known.iter().find(|(start, _)| sentence.starts_with(start)).map(|(_, number)| *number)
}

/// Number and offset of a reading error.
pub fn of_reading(error: &SaxError) -> (u32, usize) {
    let number = number(&error.message, SENTENCES).unwrap_or_else(|| panic!("unknown: {error}"));
    (number, error.offset)
}

/// Number and offset of a conversion's error, which holds a reading error as its sentence alone.
pub fn of_conversion(error: &SbeError) -> (u32, usize) {
    if let Some(number) = number(&error.msg, ARRAYS) {
        return (number, 0);
    }
    let (sentence, offset) = error.msg.rsplit_once(" at offset ").expect("a reading error");
    let sentence = sentence.strip_prefix("sbe-sax: ").expect("a reading error");
    of_reading(&SaxError::new(sentence, offset.parse().expect("an offset")))
}
