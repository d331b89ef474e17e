//! Schemas as exchanges write them, for the benchmark: every element with a description, fields with offset and
//! semanticType, and whatever else nobody prints. All from a seed.

use crate::prng::Prng;

const WORDS: [&str; 20] = [
    "Order", "Price", "Qty", "Side", "Time", "Trade", "Entry", "Security", "Market", "Status", "Type",
    "Party", "Account", "Symbol", "Leg", "Quote", "Book", "Level", "Rpt", "Seq",
];

fn name(rng: &mut Prng, words: usize) -> String {
    (0..words).map(|_| rng.pick(&WORDS)).collect()
}

fn a_type(rng: &mut Prng, names: &mut Vec<String>) -> String {
    let name_ = format!("{}{}", name(rng, 2), names.len());
    let primitive =
        rng.pick(&["uint8", "int8", "uint16", "int16", "uint32", "int32", "uint64", "int64", "char", "char"]);
    let length = match primitive {
        "char" => format!(" length=\"{}\"", 2 + rng.below(19)),
        _ => String::new(),
    };
    let text = format!(
        "  <type name=\"{name_}\" description=\"{} of the {}\" primitiveType=\"{primitive}\"{length} semanticType=\"{}\"/>\n",
        name(rng, 3),
        name(rng, 1),
        rng.pick(&["int", "String", "Price"]),
    );
    names.push(name_);
    text
}

fn an_enum(rng: &mut Prng, names: &mut Vec<String>) -> String {
    let name_ = format!("{}E{}", name(rng, 2), names.len());
    let mut text =
        format!("  <enum name=\"{name_}\" encodingType=\"uint8\" description=\"{}\">\n", name(rng, 2));
    for k in 0..2 + rng.below(5) {
        let value = name(rng, 2);
        text += &format!("    <validValue name=\"{value}\" description=\"a value\">{k}</validValue>\n");
    }
    names.push(name_);
    text + "  </enum>\n"
}

fn a_composite(rng: &mut Prng, names: &mut Vec<String>) -> String {
    let name_ = format!("{}C{}", name(rng, 2), names.len());
    let mut text = format!("  <composite name=\"{name_}\" description=\"{}\">\n", name(rng, 2));
    for k in 0..2 + rng.below(3) {
        let (part, primitive) = (name(rng, 2).to_lowercase(), rng.pick(&["int64", "uint16", "int8"]));
        text +=
            &format!("    <type name=\"{part}\" primitiveType=\"{primitive}\" description=\"part {k}\"/>\n");
    }
    names.push(name_);
    text + "  </composite>\n"
}

fn a_field(rng: &mut Prng, names: &[String], indent: &str, id: usize) -> String {
    let type_ = &names[rng.below(names.len())];
    format!(
        "{indent}<field name=\"f{}\" id=\"{id}\" type=\"{type_}\" description=\"{}\" offset=\"{}\" semanticType=\"{}\"/>\n",
        name(rng, 2),
        name(rng, 2),
        4 * id,
        rng.pick(&["int", "Price", "String"]),
    )
}

fn a_message(rng: &mut Prng, names: &[String], k: usize) -> String {
    let mut text = format!(
        "<sbe:message name=\"{}{k}\" id=\"{}\" description=\"{} message\" blockLength=\"32\" semanticType=\"X\">\n",
        name(rng, 2),
        k + 1,
        name(rng, 2),
    );
    for id in 1..5 + rng.below(6) {
        text += &a_field(rng, names, "  ", id);
    }
    if rng.once_in(2) {
        text += &format!(
            "  <group name=\"{}Entries\" id=\"{}\" description=\"group\" blockLength=\"16\" dimensionType=\"groupSizeEncoding\">\n",
            name(rng, 1),
            100 + rng.below(100),
        );
        for id in 50..52 + rng.below(4) {
            text += &a_field(rng, names, "    ", id);
        }
        text += "  </group>\n";
    }
    text + "</sbe:message>\n"
}

/// What each begins with.
const HEAD: &str = "<?xml version=\"1.0\" encoding=\"UTF-8\" standalone=\"yes\"?>\n<sbe:messageSchema \
    xmlns:sbe=\"http://fixprotocol.io/2016/sbe\" package=\"exchange.feed\" id=\"12\" version=\"3\" \
    semanticVersion=\"5.2\" description=\"Market data\" byteOrder=\"littleEndian\">\n<types>\n";

/// The smallest one, of about 600 bytes: a type, and a message with one field.
pub fn smallest(rng: &mut Prng) -> String {
    let mut names = Vec::new();
    let type_ = a_type(rng, &mut names);
    let field = a_field(rng, &names, "  ", 1);
    let message = format!(
        "<sbe:message name=\"{}0\" id=\"1\" description=\"{} message\" blockLength=\"32\" semanticType=\"X\">\n",
        name(rng, 2),
        name(rng, 2),
    );
    format!("{HEAD}{type_}</types>\n{message}{field}</sbe:message>\n</sbe:messageSchema>\n")
}

/// A schema of about `length` bytes, and of 1,000 at least.
pub fn schema(rng: &mut Prng, length: usize) -> String {
    let mut text = String::from(HEAD);
    let mut names: Vec<String> = ["uint32", "int64", "char"].map(String::from).into();
    let parts: [(fn(&mut Prng, &mut Vec<String>) -> String, usize); 3] =
        [(a_type, 15), (an_enum, 27), (a_composite, 35)];
    for (part, percent) in parts {
        while text.len() * 100 < length * percent {
            text += &part(rng, &mut names);
        }
    }
    text += "</types>\n";
    let mut k = 0;
    while k == 0 || text.len() + 600 < length {
        text += &a_message(rng, &names, k);
        k += 1;
    }
    text + "</sbe:messageSchema>\n"
}

/// Types, and fields that name them, with little else.
pub fn dense(rng: &mut Prng, types: usize, fields: usize) -> String {
    let mut text = String::from("<messageSchema id=\"1\">");
    for k in 0..types {
        text += &format!("<type name=\"T{k}\" primitiveType=\"uint16\"/>");
    }
    text += "<message name=\"M\" id=\"1\">";
    for k in 0..fields {
        text += &format!("<field name=\"f{k}\" id=\"{k}\" type=\"T{}\"/>", rng.below(types));
    }
    text + "</message></messageSchema>"
}
