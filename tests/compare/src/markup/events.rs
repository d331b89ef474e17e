//! A document as the reference's reader reads it, in the bytes that crates/test_probe describes: a mark of
//! 128 or more before each text, which is ASCII.

use std::collections::{BTreeMap, HashMap};
use std::fmt;

use reference::saxlite::{parse_xml, SaxError, SaxHandler};

use crate::refusals;
use crate::suite::shown;

const TEXT: u8 = 0x80;
const OPEN: u8 = 0x81;
const NAME: u8 = 0x82;
const VALUE: u8 = 0x83;
const CLOSE: u8 = 0x84;

/// The events of a document, or those before the refusal; number 0 where nothing is refused.
#[derive(Clone, PartialEq)]
pub struct Reading {
    pub number: u32,
    pub offset: usize,
    pub place: usize,
    pub events: Vec<u8>,
}

impl fmt::Debug for Reading {
    fn fmt(&self, f: &mut fmt::Formatter<'_>) -> fmt::Result {
        let Reading { number, offset, place, events } = self;
        write!(f, "number {number} offset {offset} place {place} events {}", shown(events))
    }
}

#[derive(Default)]
struct Recorder(Vec<u8>);

impl Recorder {
    fn put(&mut self, mark: u8, text: &str) {
        self.0.push(mark);
        self.0.extend(text.as_bytes());
    }
}

impl SaxHandler for Recorder {
    fn open(&mut self, name: &str, attrs: &HashMap<String, String>) -> Result<(), SaxError> {
        self.put(OPEN, name);
        for (name, value) in attrs.iter().collect::<BTreeMap<_, _>>() {
            self.put(NAME, name);
            self.put(VALUE, value);
        }
        Ok(())
    }

    fn close(&mut self, name: &str) -> Result<(), SaxError> {
        self.put(CLOSE, name);
        Ok(())
    }

    fn text(&mut self, value: &str) -> Result<(), SaxError> {
        self.put(TEXT, value);
        Ok(())
    }
}

/// What the reference's reader makes of a document; 10, which it doesn't have, before all else.
pub fn read(document: &[u8]) -> Reading {
    if let Some(at) = document.iter().position(|b| *b >= 128) {
        return Reading { number: 10, offset: at, place: at, events: Vec::new() };
    }
    let document = std::str::from_utf8(document).expect("the document is ASCII");
    let mut recorder = Recorder::default();
    let read = parse_xml(document, &mut recorder);
    let events = recorder.0;
    match read {
        Ok(()) => Reading { number: 0, offset: 0, place: 0, events },
        Err(e) => {
            let (number, offset) = refusals::of_reading(&e);
            Reading { number, offset, place: place(document, offset), events }
        }
    }
}

/// The `<` of the tag or markup that was refused at `offset`: the last one before which the reference
/// reads the document whole.
pub fn place(document: &str, offset: usize) -> usize {
    let brackets = document.char_indices().rev().filter(|(at, c)| *at <= offset && *c == '<');
    let mut whole = brackets.filter(|(at, _)| parse_xml(&document[..*at], &mut Recorder::default()).is_ok());
    whole.next().expect("a refusal has its `<`").0
}

#[cfg(test)]
mod tests {
    use super::*;

    #[test]
    fn events_of_a_document() {
        let document = b"<?xml?><p:a c='2' p:b=\"1\" xmlns:p='q' c='&lt;&amp;lt;'>x<b/></p:a><!-- -->";
        let events = b"\x81a\x82b\x831\x82c\x83<&lt;\x80x\x81b\x84b\x84a".to_vec();
        assert_eq!(read(document), Reading { number: 0, offset: 0, place: 0, events });
    }

    /// The worked examples, and the places of others.
    #[test]
    fn trials() {
        for (document, number, offset, place) in [
            ("</>", 0, 0, 0),
            ("<", 15, 1, 0),
            ("<a b>", 18, 4, 0),
            ("<!-->", 11, 0, 0),
            ("<a/ >", 17, 2, 0),
            ("<a>x</a <", 14, 8, 4),
            ("<!<><a '<'='<'><b c='<", 20, 21, 15),
            ("<a><", 15, 4, 3),
            ("a\u{e9}<", 10, 1, 1),
        ] {
            let r = read(document.as_bytes());
            assert_eq!((r.number, r.offset, r.place), (number, offset, place), "{document}");
        }
    }
}
