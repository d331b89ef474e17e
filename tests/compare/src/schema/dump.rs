//! What the reference makes of a schema document: the model (all that the port keeps: no descriptions, no
//! byteOrder) in the bytes that crates/test_probe/src/dump.rt describes.

use reference::xmlschema::{XmlField, XmlSchema, XmlType};

const PACKAGE: u8 = 0x80;
const TYPE: u8 = 0x81;
const MEMBER: u8 = 0x82;
const REF: u8 = 0x83;
const COMPOSITE: u8 = 0x84;
const ENUM: u8 = 0x85;
const VALUE: u8 = 0x86;
const MESSAGE: u8 = 0x87;
const GROUP: u8 = 0x88;
const FIELD: u8 = 0x89;
const ID: u8 = 0x8a;
const VERSION: u8 = 0x8b;
const SECOND: u8 = 0x8c;
const NUMBER: u8 = 0x8d;
const GIVEN: u8 = 0x8e;
const ENCODING: u8 = 0x8f;

/// The model as bytes.
pub fn model(schema: &XmlSchema) -> Vec<u8> {
    let mut out = Vec::new();
    put(&mut out, PACKAGE, &schema.package);
    put(&mut out, ID, &schema.id.to_string());
    put(&mut out, VERSION, &schema.version.to_string());
    for t in &schema.types.types {
        put_type(&mut out, TYPE, t);
    }
    for c in &schema.types.composites {
        put_item(&mut out, COMPOSITE, &c.name, "", 0);
        c.types.iter().for_each(|t| put_type(&mut out, MEMBER, t));
        c.refs.iter().for_each(|r| put_item(&mut out, REF, &r.name, &r.r#type, 0));
    }
    for e in &schema.types.enums {
        put_item(&mut out, ENUM, &e.name, &e.encoding_type, 0);
        e.valid_values.iter().for_each(|v| put_item(&mut out, VALUE, &v.name, &v.value, 0));
    }
    for m in &schema.messages {
        put_item(&mut out, MESSAGE, &m.name, "", m.id);
        put_fields(&mut out, &m.fields);
        for g in &m.groups {
            put_item(&mut out, GROUP, &g.name, "", g.id);
            put_fields(&mut out, &g.fields);
        }
    }
    out
}

fn put(out: &mut Vec<u8>, mark: u8, text: &str) {
    out.push(mark);
    out.extend(text.as_bytes());
}

fn put_all(out: &mut Vec<u8>, kind: u8, name: &str, second: &str, number: u32, given: bool, encoding: &str) {
    put(out, kind, name);
    put(out, SECOND, second);
    put(out, NUMBER, &number.to_string());
    put(out, GIVEN, if given { "1" } else { "0" });
    put(out, ENCODING, encoding);
}

/// An item without length and encoding.
fn put_item(out: &mut Vec<u8>, kind: u8, name: &str, second: &str, number: u32) {
    put_all(out, kind, name, second, number, false, "");
}

/// An absent encoding is an empty one; an absent length differs from 0.
fn put_type(out: &mut Vec<u8>, kind: u8, t: &XmlType) {
    let encoding = t.character_encoding.as_deref().unwrap_or("");
    put_all(out, kind, &t.name, &t.primitive_type, t.length.unwrap_or(0), t.length.is_some(), encoding);
}

fn put_fields(out: &mut Vec<u8>, fields: &[XmlField]) {
    fields.iter().for_each(|f| put_item(out, FIELD, &f.name, &f.r#type, f.id));
}

#[cfg(test)]
mod tests {
    use super::*;
    use reference::xmlschema::parse_xml_schema;

    #[test]
    fn a_model() {
        let document = "<messageSchema package='p q' id='+7'><types><composite name='c'><type name='t' primitiveType='char' \
            characterEncoding=''/><ref name='r' type='e'/></composite><enum name='e' encodingType='uint8'><validValue name='v'> \
            1&lt; </validValue></enum></types><type length='2'/><message name='m' id='3'><field name='f' id='4' type='c'/><group \
            name='g' id='5'><field name='h' id='6'/></group></message></messageSchema>";
        let due: [&[u8]; 10] = [
            b"\x80p q\x8a7\x8b0",
            b"\x81\x8c\x8d2\x8e1\x8f",
            b"\x84c\x8c\x8d0\x8e0\x8f",
            b"\x82t\x8cchar\x8d0\x8e0\x8f",
            b"\x83r\x8ce\x8d0\x8e0\x8f",
            b"\x85e\x8cuint8\x8d0\x8e0\x8f\x86v\x8c1<\x8d0\x8e0\x8f",
            b"\x87m\x8c\x8d3\x8e0\x8f",
            b"\x89f\x8cc\x8d4\x8e0\x8f",
            b"\x88g\x8c\x8d5\x8e0\x8f",
            b"\x89h\x8c\x8d6\x8e0\x8f",
        ];
        assert_eq!(model(&parse_xml_schema(document).unwrap()), due.concat());
    }
}
