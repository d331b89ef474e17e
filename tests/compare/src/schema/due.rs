//! What has to come of a schema document: the reference's outcome with the port's numbers and places, and
//! the refusals that the port adds.

use std::collections::HashMap;

use reference::saxlite::{parse_xml, SaxError, SaxHandler};
use reference::xmlschema::{parse_xml_schema, XmlSchema, XmlType};
use reference::xmltoproto::xml_to_proto;

use crate::markup::events;
use crate::refusals::{self, MISPLACED_FIELD};
use crate::suite::caught;

pub const LONGEST: usize = 32_768;
pub const RECORDS: usize = 16_384;
pub const TEXT: usize = 65_536;
const DEPTH: usize = 64;
const ITEMS: usize = 1_024;

const OPEN_ELEMENTS: u32 = 31;
const TOO_DEEP: u32 = 34;
const TOO_MANY: u32 = 35;
const IN_COMPOSITE: u32 = 40;
const IN_MESSAGE: u32 = 41;

/// A refusal.
#[derive(Clone, Copy, Debug, PartialEq)]
pub struct Refused {
    pub number: u32,
    pub offset: usize,
    pub place: usize,
}

fn structural(number: u32, place: usize) -> Refused {
    Refused { number, offset: 0, place }
}

/// The model, with buffers of these lengths.
pub fn schema(document: &[u8], records: usize, text: usize) -> Result<XmlSchema, Refused> {
    tested(document, records, text).and_then(read)
}

/// The source, with buffers of these lengths and room enough.
pub fn source(document: &[u8], records: usize, text: usize) -> Result<String, Refused> {
    let document = tested(document, records, text)?;
    // The limits are the port's own: where they are kept, the reference's answer is due.
    limit(document).map_or(Ok(()), |_| read(document).map(|_| ()))?;
    match caught(|| xml_to_proto(document)) {
        Some(Ok(source)) => Ok(source),
        Some(Err(e)) if refusals::of_conversion(&e).0 >= IN_COMPOSITE => {
            let schema = parse_xml_schema(document).expect("a schema that was read");
            Err(array(&schema, &e.msg, refusals::of_conversion(&e).0))
        }
        _ => read(document).map(|_| unreachable!("a refused document is read")),
    }
}

/// The caller's refusals, and 10.
fn tested(document: &[u8], records: usize, text: usize) -> Result<&str, Refused> {
    if document.len() > LONGEST {
        return Err(structural(1, 0));
    }
    if records < RECORDS || text < TEXT {
        return Err(structural(2, 0));
    }
    if let Some(at) = document.iter().position(|b| *b >= 128) {
        return Err(Refused { number: 10, offset: at, place: at });
    }
    Ok(std::str::from_utf8(document).expect("the document is ASCII"))
}

/// What comes first of the reference's refusal and the limits'. At one tag: 34, 32, 33, 35.
fn read(document: &str) -> Result<XmlSchema, Refused> {
    let by_reference = of_reference(document);
    let Some(limit) = limit(document) else { return by_reference };
    match by_reference {
        Err(r) if r.number != OPEN_ELEMENTS && r.place < limit.place => Err(r),
        Err(r) if r.place == limit.place && limit.number == TOO_MANY => Err(r),
        _ => Err(limit),
    }
}

/// Number and offset of the reference's refusal; None where there is none.
fn refusal(document: &str) -> Option<(u32, usize)> {
    match caught(|| parse_xml_schema(document)) {
        None => Some((MISPLACED_FIELD, 0)),
        Some(Err(e)) => Some(refusals::of_reading(&e)),
        Some(Ok(_)) => None,
    }
}

fn of_reference(document: &str) -> Result<XmlSchema, Refused> {
    if let Some(Ok(schema)) = caught(|| parse_xml_schema(document)) {
        return Ok(schema);
    }
    let (number, offset) = refusal(document).expect("a refusal");
    let place = match number {
        11..=20 => events::place(document, offset),
        OPEN_ELEMENTS => document.len(),
        _ => place(document, |part| match refusal(part) {
            None | Some((OPEN_ELEMENTS, _)) => Part::Whole,
            Some((n, _)) if n == number => Part::Refused,
            _ => Part::Cut,
        }),
    };
    Err(Refused { number, offset, place })
}

/// The beginning of a document.
enum Part {
    /// It is read whole.
    Whole,
    /// It has the refusal.
    Refused,
    /// It ends within markup.
    Cut,
}

/// The `<` of the tag that has a refusal: the last one before which the document is read whole.
fn place(document: &str, read: impl Fn(&str) -> Part) -> usize {
    let brackets: Vec<usize> = document.match_indices('<').map(|(at, _)| at).collect();
    // Beginnings that have the whole tag are refused; none before them is.
    let first = brackets.partition_point(|at| !matches!(read(&document[..*at]), Part::Refused));
    let mut before = brackets[..first].iter().rev();
    *before.find(|at| matches!(read(&document[..**at]), Part::Whole)).expect("a refusal has its `<`")
}

// ---- limits

/// Counts open elements and items by the port's rules, and ends the reading at a limit.
#[derive(Default)]
struct Counter {
    stack: Vec<String>,
    composite: bool,
    enumer: bool,
    message: bool,
    items: usize,
}

impl SaxHandler for Counter {
    fn open(&mut self, name: &str, _: &HashMap<String, String>) -> Result<(), SaxError> {
        let in_composite = self.stack.last().is_some_and(|parent| parent == "composite");
        self.stack.push(name.to_string());
        if self.stack.len() > DEPTH {
            return Err(SaxError::new("too deep", 0));
        }
        let added = match name {
            "composite" => {
                self.composite = true;
                true
            }
            "enum" => {
                self.enumer = true;
                true
            }
            "message" => {
                self.message = true;
                true
            }
            "type" => !in_composite || self.composite,
            "ref" => self.composite,
            "validValue" => self.enumer,
            "group" | "field" => self.message,
            _ => false,
        };
        self.items += usize::from(added);
        if self.items > ITEMS {
            return Err(SaxError::new("too many", 0));
        }
        Ok(())
    }

    fn close(&mut self, name: &str) -> Result<(), SaxError> {
        self.stack.pop();
        match name {
            "composite" => self.composite = false,
            "enum" => self.enumer = false,
            "message" => self.message = false,
            _ => (),
        }
        Ok(())
    }

    fn text(&mut self, _: &str) -> Result<(), SaxError> {
        Ok(())
    }
}

fn count(document: &str) -> Result<(), SaxError> {
    parse_xml(document, &mut Counter::default())
}

/// The first limit that is passed, were nothing else refused.
fn limit(document: &str) -> Option<Refused> {
    if document.matches('<').count() <= DEPTH {
        return None;
    }
    let number = match count(document).err()?.message.as_str() {
        "too deep" => TOO_DEEP,
        "too many" => TOO_MANY,
        _ => return None,
    };
    let place = place(document, |part| match count(part) {
        Ok(()) => Part::Whole,
        Err(e) if e.message.starts_with("too ") => Part::Refused,
        Err(_) => Part::Cut,
    });
    Some(structural(number, place))
}

// ---- arrays

fn is_array(t: &XmlType) -> bool {
    t.length.unwrap_or(0) > 1 && !["char", "uint8", "int8"].contains(&t.primitive_type.as_str())
}

/// Whether a field of this type is refused. The last declaration counts; a built-in type is no array.
fn is_array_name(schema: &XmlSchema, name: &str) -> bool {
    let types = &schema.types;
    if types.enums.iter().any(|e| e.name == name) || types.composites.iter().any(|c| c.name == name) {
        return false;
    }
    types.types.iter().rev().find(|t| t.name == name).is_some_and(is_array)
}

/// The place of an array: the position of its composite or message, which the sentence names too.
fn array(schema: &XmlSchema, sentence: &str, number: u32) -> Refused {
    let unprinted = ["messageHeader", "groupSizeEncoding"];
    let composite = schema
        .types
        .composites
        .iter()
        .position(|c| !unprinted.contains(&c.name.as_str()) && c.types.iter().any(is_array));
    let message = schema.messages.iter().position(|m| {
        let mut fields = m.fields.iter().chain(m.groups.iter().flat_map(|g| &g.fields));
        fields.any(|f| is_array_name(schema, &f.r#type))
    });
    let (due, place, named) = match (composite, message) {
        (Some(at), _) => {
            (IN_COMPOSITE, at, format!("sbe: composite {:?}: ", schema.types.composites[at].name))
        }
        (None, Some(at)) => (IN_MESSAGE, at, format!("sbe: message {:?}: ", schema.messages[at].name)),
        (None, None) => panic!("no array: {sentence}"),
    };
    assert_eq!(due, number, "{sentence}");
    assert!(sentence.starts_with(&named), "{sentence}");
    structural(number, place)
}

#[cfg(test)]
mod tests {
    use super::*;

    fn figures(document: &str) -> (u32, usize, usize) {
        match source(document.as_bytes(), RECORDS, TEXT) {
            Ok(_) => (0, 0, 0),
            Err(r) => (r.number, r.offset, r.place),
        }
    }

    #[test]
    fn refusals_have_their_figures() {
        crate::suite::silence_panics();
        let array = "<type name='n' primitiveType='uint16' length='2'/>";
        for (document, due) in [
            ("<a><b></a>".to_string(), (30, 0, 6)),
            ("<a>".into(), (31, 0, 3)),
            ("<a/><field x='<' id='-0' y='<'/>".into(), (32, 0, 4)),
            ("<message><group><message><field/><".into(), (33, 0, 25)),
            (format!("<composite/><composite name='c'>{array}</composite>"), (40, 0, 1)),
            (format!("<composite name='messageHeader'>{array}</composite>"), (0, 0, 0)),
            (format!("{array}<message/><message name='m'><field name='f' type='n'/></message>"), (41, 0, 1)),
            ("<a".into(), (16, 2, 0)),
            ("<a>".repeat(64) + &"</a>".repeat(64), (0, 0, 0)),
            ("<a>".repeat(64), (31, 0, 192)),
            ("<a>".repeat(64) + "<field id='x'/>", (34, 0, 192)),
            ("<type/>".repeat(1024), (0, 0, 0)),
            ("<type/>".repeat(1025) + "</a>", (35, 0, 7 * 1024)),
            ("<type/>".repeat(1024) + "<type length='x'/>", (32, 0, 7 * 1024)),
            ("<type/>".repeat(1024) + "</a>" + "<type/>", (30, 0, 7 * 1024)),
        ] {
            assert_eq!(figures(&document), due, "{document}");
        }
    }

    /// The empty document gives 108 bytes.
    #[test]
    fn the_empty_document() {
        assert_eq!(source(b"", RECORDS, TEXT).unwrap().len(), 108);
    }
}
