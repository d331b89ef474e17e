//! Documents at the limits, all short structures, and schemas of real size.

use super::due::{LONGEST, RECORDS, TEXT};
use crate::prng::Prng;

/// A document, and how long the two work buffers are.
#[derive(Clone)]
pub struct Call {
    pub document: Vec<u8>,
    pub records: usize,
    pub text: usize,
}

impl Call {
    pub fn new(document: Vec<u8>) -> Self {
        Call { document, records: RECORDS, text: TEXT }
    }
}

/// Opens, closes and single elements; "" closes the innermost open one.
const STEPS: [&str; 12] = [
    "<composite>", "<enum name='E'>", "<validValue name='v'>", "<message>", "<group>", "<field name='f'/>",
    "<type/>", "<ref/>", "<types>", " 1&lt; ", "", "<message/>",
];

/// Every document of up to `most` steps, its open elements closed.
pub fn structures(most: usize, each: &mut dyn FnMut(Vec<u8>)) {
    extend(&mut Vec::new(), &mut Vec::new(), most, each);
}

fn extend(document: &mut Vec<u8>, open: &mut Vec<&'static str>, left: usize, each: &mut dyn FnMut(Vec<u8>)) {
    let closes = open.iter().rev().flat_map(|name| [b"</", name.as_bytes(), b">"].concat());
    each(document.iter().copied().chain(closes).collect());
    if left == 0 {
        return;
    }
    for step in STEPS {
        let (length, depth) = (document.len(), open.len());
        let closed = if step.is_empty() { open.pop() } else { None };
        match closed {
            Some(name) => document.extend([b"</", name.as_bytes(), b">"].concat()),
            None if step.is_empty() => continue,
            None => document.extend(step.as_bytes()),
        }
        if step.starts_with('<') && !step.ends_with("/>") {
            open.push(step[1..].split([' ', '>']).next().expect("a name"));
        }
        extend(document, open, left - 1, each);
        document.truncate(length);
        open.truncate(depth);
        open.extend(closed);
    }
}

/// Documents at and past each limit.
pub fn limits() -> Vec<Call> {
    let mut calls = Vec::new();
    for document in longest().into_iter().chain(depths()).chain(items()).chain(numbers()) {
        calls.push(Call::new(document.into_bytes()));
    }
    calls.extend(buffers());
    calls
}

/// The text between two others, so that the whole has a length.
fn filled(before: &str, filler: &str, after: &str, length: usize) -> String {
    let room = length - before.len() - after.len();
    let mut middle = filler.repeat(room / filler.len());
    middle += &" ".repeat(room - middle.len());
    format!("{before}{middle}{after}")
}

fn longest() -> Vec<String> {
    let mut documents = Vec::new();
    for length in [LONGEST - 1, LONGEST, LONGEST + 1, LONGEST + 2] {
        for (before, filler, after) in [
            ("", " ", ""),
            ("<!--", "-", "-->"),
            ("<type name='", "x", "'/>"),
            ("<type name='", "&amp;", "' primitiveType='char'/>"),
            ("<enum><validValue>", "1 ", "</validValue></enum>"),
            ("<enum><validValue>", "&lt;", "</validValue></enum>"),
            ("<enum><validValue>", "<a/>1", "</validValue></enum>"),
            ("<messageSchema package='", "p", "'/>"),
            ("<", "m", "/>"),
            ("<message ", "a=''", "/>"),
            ("<message>", "<field name='abcdefghijklmnop' id='7' type='uint64'/>", "</message>"),
            ("", "<type name='abcdefghijklmn' primitiveType='x' characterEncoding='y'/>", ""),
            ("", "</>", ""),
            ("<a>", "\u{b}", ""),
        ] {
            documents.push(filled(before, filler, after, length));
        }
    }
    documents
}

fn depths() -> Vec<String> {
    let mut documents = Vec::new();
    for depth in [1, 63, 64, 65, 66, 200] {
        for name in ["a", "composite", "enum", "validValue", "message", "group", "types", "messageSchema"] {
            let (open, close) = (format!("<{name}>").repeat(depth), format!("</{name}>").repeat(depth));
            documents.push(open.clone());
            documents.push(format!("{open}{close}"));
            documents.push(format!("{open}{close}</x>"));
            for inner in [
                "<a/>", "<field id='x'/>", "<field/>", "<type length='-1'/>", "</x>", "<",
                "<message id='x'/>", "<group/>", " 1 ", "<validValue>2</validValue>",
            ] {
                documents.push(format!("{open}{inner}{close}"));
            }
        }
        // The last one open is a field that the reference panics on.
        let open = "<message><group><message>".to_string() + &"<a>".repeat(depth.saturating_sub(3));
        documents.push(format!("{open}<field/>"));
        documents.push(format!("{open}<field id='x'/>"));
    }
    documents
}

fn items() -> Vec<String> {
    let mut documents = Vec::new();
    for count in [1022, 1023, 1024, 1025, 1026, 1100] {
        for (before, each, after) in [
            ("", "<type/>", ""),
            ("", "<composite/>", ""),
            ("", "<enum/>", ""),
            ("", "<message/>", ""),
            ("<composite>", "<type/>", "</composite>"),
            ("<composite>", "<ref/>", "</composite>"),
            ("<enum>", "<validValue>1</validValue>", "</enum>"),
            ("<message>", "<field/>", "</message>"),
            ("<message>", "<group/>", "</message>"),
            ("<message><group>", "<field/>", "</group></message>"),
            ("<message>", "<field/><ref/><validValue/>", "</message>"),
            ("", "<a/>", ""),
            ("", "<field/>", ""),
            ("", "<group/>", ""),
            ("", "<composite><x><type/></x></composite>", ""),
        ] {
            for last in [
                "", "<type/>", "<type length='x'/>", "<field id='x'/>", "<message id='x'/>", "</x>", "<",
                "<ref/>", "<group/>", "<validValue/>",
            ] {
                documents.push(format!("{before}{}{last}{after}", each.repeat(count)));
            }
        }
        // The last item would be a misplaced field.
        let many = "<type/>".repeat(count - 3);
        documents.push(format!("{many}<message><group><message><field/>"));
        documents.push(format!("{many}<message><group><message><a><field/>"));
    }
    documents.retain(|d| d.len() <= LONGEST);
    documents
}

fn numbers() -> Vec<String> {
    let mut documents = Vec::new();
    for number in [
        "4294967295",
        "4294967296",
        "4294967294",
        "+4294967295",
        "+4294967296",
        "04294967295",
        "04294967296",
        "42949672950",
        "4294967300",
        "5000000000",
        "9999999999",
        "10000000000",
        "18446744073709551615",
        "18446744073709551616",
        "000000000000000000000000000000000001",
        "",
        "+",
        "-",
        "-1",
        "-0",
        "+-1",
        "++1",
        "0",
        "+0",
        "1_000",
        "1 ",
        " 1",
        "\t1",
        "1.0",
        "0x1",
        "&#49;",
        "&amp;",
        "\u{661}",
        "4294967295&lt;",
        "1\0",
    ] {
        for (before, after) in [
            ("<messageSchema id='", "'/>"),
            ("<messageSchema version='", "'/>"),
            ("<messageSchema id='3' version='", "' id='x'/>"),
            ("<type length='", "'/>"),
            ("<type length='x' length='", "'/>"),
            ("<composite><type length='", "'/></composite>"),
            ("<composite><composite/><type length='", "'/></composite>"),
            ("<message id='", "'/>"),
            ("<group id='", "'/>"),
            ("<message><group id='", "'/></message>"),
            ("<field id='", "'/>"),
            ("<message><field id='", "'/></message>"),
            ("<message><group><field id='", "'/></group></message>"),
            ("<message><group><message><field id='", "'/>"),
            ("<enum id='", "'/>"),
            ("<a id='", "'/>"),
        ] {
            documents.push(format!("{before}{number}{after}"));
        }
    }
    documents
}

fn buffers() -> Vec<Call> {
    let documents: [&[u8]; 6] = [
        b"",
        b"<messageSchema package='p' id='1'><message name='m'><field name='f'/></message></messageSchema>",
        b"<a>",
        b"\xff",
        &[b' '; LONGEST + 1],
        &[0xff; LONGEST + 1],
    ];
    let mut calls = Vec::new();
    for document in documents {
        for records in [0, 1, RECORDS - 1, RECORDS, RECORDS + 1, 2 * RECORDS] {
            for text in [0, 1, TEXT - 1, TEXT, TEXT + 1, 2 * TEXT] {
                calls.push(Call { document: document.to_vec(), records, text });
            }
        }
    }
    calls
}

const PRIMITIVES: [&str; 11] =
    ["char", "int8", "int16", "int32", "int64", "uint8", "uint16", "uint32", "uint64", "float", "double"];

/// A schema as a venue publishes it, of about `length` bytes, with fields of every kind.
pub fn real(rng: &mut Prng, length: usize) -> Vec<u8> {
    let mut text = String::from(
        "<?xml version=\"1.0\" encoding=\"UTF-8\"?>\n<sbe:messageSchema xmlns:sbe=\"http://fixprotocol.io/2016/sbe\" \
         package=\"venue.market\" id=\"17\" version=\"3\" byteOrder=\"littleEndian\">\n  <types>\n",
    );
    let mut names: Vec<String> = PRIMITIVES.iter().map(|p| p.to_string()).collect();
    let mut k = 0;
    while text.len() < length * 2 / 5 {
        k += 1;
        match rng.below(4) {
            0 => {
                text += &format!("    <enum name=\"Kind{k}\" encodingType=\"uint8\" description=\"kind\">\n");
                for v in 0..1 + rng.below(6) {
                    text += &format!("      <validValue name=\"ValueNo{v}\">{v}</validValue>\n");
                }
                text += "    </enum>\n";
                names.push(format!("Kind{k}"));
            }
            1 => {
                text += &format!("    <composite name=\"Decimal{k}\">\n");
                for v in 0..1 + rng.below(4) {
                    let primitive = PRIMITIVES[rng.below(PRIMITIVES.len())];
                    text += &format!("      <type name=\"partNo{v}\" primitiveType=\"{primitive}\"/>\n");
                }
                if let Some(kind) = names.iter().rev().find(|n| n.starts_with("Kind")) {
                    text += &format!("      <ref name=\"kind\" type=\"{kind}\"/>\n");
                }
                text += "    </composite>\n";
                names.push(format!("Decimal{k}"));
            }
            _ => {
                let (primitive, more) = match rng.below(5) {
                    0 => (
                        "char",
                        format!(" length=\"{}\" characterEncoding=\"ISO-8859-1\"", 1 + rng.below(20)),
                    ),
                    1 => {
                        ("char", format!(" length=\"{}\" characterEncoding=\"US-ASCII\"", 1 + rng.below(20)))
                    }
                    2 => ("uint8", format!(" length=\"{}\"", 1 + rng.below(20))),
                    _ => (PRIMITIVES[rng.below(PRIMITIVES.len())], String::new()),
                };
                text += &format!("    <type name=\"Type{k}\" primitiveType=\"{primitive}\"{more}/>\n");
                names.push(format!("Type{k}"));
            }
        }
    }
    text += "  </types>\n";
    let mut message = 0;
    while text.len() + 800 < length {
        message += 1;
        text += &format!("  <sbe:message name=\"OrderBook{message}\" id=\"{message}\">\n");
        let mut id = 0;
        let mut fields = |text: &mut String, indent: &str, count: usize| {
            for _ in 0..count {
                id += 1;
                let name = &names[rng.below(names.len())];
                *text += &format!("{indent}<field name=\"fieldNo{id}\" id=\"{id}\" type=\"{name}\"/>\n");
            }
        };
        fields(&mut text, "    ", 6);
        text += &format!("    <group name=\"entries\" id=\"{}\">\n", 90);
        fields(&mut text, "      ", 3);
        text += "    </group>\n  </sbe:message>\n";
    }
    text += "</sbe:messageSchema>\n";
    text.into_bytes()
}
