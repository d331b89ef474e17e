//! Random SBE schemas. Tame ones have each element where the schema language puts it; wild ones have
//! elements anywhere, odd numbers, repeated attributes and close tags that don't fit.

use crate::damage::damage;
use crate::markup::documents::BYTES;
use crate::prng::Prng;

const ELEMENTS: [&str; 13] = [
    "messageSchema", "types", "type", "ref", "composite", "enum", "validValue", "message", "group", "field",
    "data", "set", "choice",
];

/// Few names, so that types are found, shadowed and declared twice.
const NAMES: [&str; 22] = [
    "Side", "Price", "Qty", "noLegs", "entries", "orderID", "MDEntryPx", "class", "ies", "s", "", "a b",
    "messageHeader", "groupSizeEncoding", "uint8", "char", "T1", "symbol", "x&lt;y", "&amp;lt;", "Decimal",
    "statuses",
];

const PRIMITIVES: [&str; 14] = [
    "char", "int8", "int16", "int32", "int64", "uint8", "uint16", "uint32", "uint64", "float", "double", "",
    "Char", "odd",
];

/// Numbers that are taken, then those that are not.
const NUMBERS: [&str; 10] = ["0", "1", "2", "7", "42", "+7", "007", "", "4294967295", "+0"];
const ODD_NUMBERS: [&str; 11] =
    ["4294967296", "-0", "+", "-", "++1", " 7", "7 ", "0x10", "1e3", "99999999999999999999", "a"];

/// Encodings that are UTF-8 compatible, those that nearly are, and those that need escaping.
const ENCODINGS: [&str; 20] = [
    "", "UTF-8", "utf8", "US-ASCII", " ascii ", "ANSI_X3.4-1968", "ANSI_X3.4-1986", "ISO646-US", "iso-ir-6",
    "ISO_646.irv:1991", "us", "IBM367", "cp367", "csASCII", "csUTF8", "ISO-8859-1", "windows-1252",
    "utf 8\t", "a&quot;b\\c'd\u{1}\u{7f}", "x\ty\0\r\n",
];

struct Maker<'a> {
    rng: &'a mut Prng,
    /// A wild choice is made once in so many times; 0 is never.
    wild: usize,
    text: String,
}

/// A random schema. A third are tame, a third have a few oddities, a third many.
pub fn random(rng: &mut Prng) -> Vec<u8> {
    let wild = rng.pick(&[0, 30, 5]);
    let mut maker = Maker { rng, wild, text: String::new() };
    if maker.rng.once_in(3) {
        maker.text += "<?xml version=\"1.0\" encoding=\"UTF-8\"?>\n";
    }
    maker.element("messageSchema", 0);
    if maker.oddly() {
        maker.any_element(0);
    }
    maker.text.into_bytes()
}

/// A few declarations and messages, without the elements around them: much in few bytes.
pub fn bare(rng: &mut Prng) -> Vec<u8> {
    let wild = rng.pick(&[0, 30]);
    let mut maker = Maker { rng, wild, text: String::new() };
    for _ in 0..2 + maker.rng.below(3) {
        let name = maker.rng.pick(&["type", "composite", "enum", "message", "message"]);
        maker.element(name, 0);
    }
    maker.text.into_bytes()
}

/// A random schema with a few faults.
pub fn damaged(rng: &mut Prng) -> Vec<u8> {
    let mut document = random(rng);
    for _ in 0..1 + rng.below(2) {
        damage(rng, &mut document, BYTES);
    }
    document
}

impl Maker<'_> {
    fn oddly(&mut self) -> bool {
        self.wild > 0 && self.rng.once_in(self.wild)
    }

    fn any_element(&mut self, depth: usize) {
        let name = self.rng.pick(&ELEMENTS);
        self.element(name, depth);
    }

    fn element(&mut self, name: &str, depth: usize) {
        let prefix = self.rng.pick(&["", "", "", "sbe:", "x:"]);
        self.text += &format!("<{prefix}{name}");
        self.attributes(name);
        let children = children(name);
        if depth > 7 || (children.is_empty() && name != "validValue" && !self.oddly()) {
            self.text += "/>";
            return;
        }
        self.text.push('>');
        self.body(name, children, depth);
        if self.oddly() && self.rng.once_in(8) {
            // A wrong name, or no close at all.
            let close = self.rng.pick(&["</enum>", "</sbe:message>", "", "</>"]);
            self.text += close;
        } else {
            self.text += &format!("</{prefix}{name}>");
        }
    }

    fn body(&mut self, name: &str, children: &[&str], depth: usize) {
        if name == "validValue" {
            let value =
                self.rng.pick(&["0", "1", " 2 ", "-1", "\n7\t", "A", "", "&amp;", "a b", "\u{b}8\u{c}"]);
            self.text += value;
        }
        let most = if self.oddly() { 6 } else { 5 };
        for _ in 0..self.rng.below(most) {
            if self.oddly() {
                self.any_element(depth + 1);
            } else if !children.is_empty() {
                let child = self.rng.pick(children);
                self.element(child, depth + 1);
            }
            let between = self.rng.pick(&["", "", "\n  ", "<!-- note -->", "text"]);
            self.text += between;
        }
    }

    fn attributes(&mut self, element: &str) {
        for attribute in attributes(element) {
            if self.rng.once_in(if self.wild > 0 { 6 } else { 12 }) {
                continue;
            }
            self.attribute(attribute);
            if self.oddly() {
                self.attribute(attribute);
            }
        }
        if self.rng.once_in(10) {
            self.attribute("description");
        }
        if self.oddly() {
            let name =
                self.rng.pick(&["xmlns", "xmlns:sbe", "id", "name", "x:id", "x:name", "type", "length"]);
            self.attribute(name);
        }
    }

    fn attribute(&mut self, name: &str) {
        let value = self.value(name.rsplit(':').next().expect("a name"));
        let prefix = if self.oddly() { "x:" } else { "" };
        let quote =
            if value.contains('"') || (self.rng.once_in(3) && !value.contains('\'')) { '\'' } else { '"' };
        self.text += &format!(" {prefix}{name}={quote}{value}{quote}");
    }

    fn value(&mut self, attribute: &str) -> &'static str {
        match attribute {
            "id" | "version" | "length" if self.oddly() && self.rng.once_in(4) => self.rng.pick(&ODD_NUMBERS),
            // Longer than one is refused for most primitives, so most lengths are 1.
            "length" if !self.rng.once_in(4) => self.rng.pick(&["1", "0", "", "+1"]),
            "id" | "version" | "length" => self.rng.pick(&NUMBERS),
            "primitiveType" => self.rng.pick(&PRIMITIVES),
            "characterEncoding" => self.rng.pick(&ENCODINGS),
            "type" if self.rng.once_in(3) => self.rng.pick(&PRIMITIVES),
            "package" => self.rng.pick(&["", "a.b", "example", "a&gt;b"]),
            // A few names often, so that many fields find their type.
            _ if self.rng.once_in(2) => self.rng.pick(&NAMES[..4]),
            _ => self.rng.pick(&NAMES),
        }
    }
}

/// What stands in an element of a tame schema.
fn children(element: &str) -> &'static [&'static str] {
    match element {
        "messageSchema" => &["types", "message", "message"],
        "types" => &["type", "composite", "enum", "type"],
        "composite" => &["type", "type", "ref"],
        "enum" => &["validValue"],
        "message" => &["field", "field", "group"],
        "group" => &["field", "field", "field", "group"],
        _ => &[],
    }
}

fn attributes(element: &str) -> &'static [&'static str] {
    match element {
        "messageSchema" => &["package", "id", "version", "byteOrder"],
        "type" => &["name", "primitiveType", "length", "characterEncoding"],
        "ref" => &["name", "type"],
        "enum" => &["name", "encodingType"],
        "message" | "group" => &["name", "id"],
        "field" => &["name", "id", "type"],
        "types" => &[],
        _ => &["name"],
    }
}

#[cfg(test)]
mod tests {
    use super::*;
    use crate::schema::due::{schema, source, RECORDS, TEXT};
    use std::collections::BTreeSet;

    #[test]
    fn documents_meet_every_refusal_and_most_convert() {
        crate::suite::silence_panics();
        let mut rng = Prng::new(2);
        let (mut converted, mut met) = (0, BTreeSet::new());
        for round in 0..20_000 {
            let document = if round % 4 == 0 { damaged(&mut rng) } else { random(&mut rng) };
            let number = source(&document, RECORDS, TEXT).map_or_else(|r| r.number, |_| 0);
            // The generator adds its own refusals to those of the model, and no others.
            let by_model = schema(&document, RECORDS, TEXT).map_or_else(|r| r.number, |_| 0);
            assert!(number == by_model || (by_model == 0 && number >= 40), "{}", document.escape_ascii());
            converted += usize::from(number == 0);
            met.insert(number);
        }
        assert!(converted > 6000, "{converted}");
        for number in [0, 10, 11, 14, 16, 17, 18, 19, 20, 30, 31, 32, 33, 40, 41] {
            assert!(met.contains(&number), "{number} is not met: {met:?}");
        }
    }
}
