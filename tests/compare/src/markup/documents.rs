//! Markup documents: all short ones over the tokens of markup, random ones by a grammar, and damaged
//! copies.

use crate::damage::damage;
use crate::prng::Prng;

pub const TOKENS: [&str; 23] = [
    "<", "</", ">", "/>", "<!--", "-->", "<?", "?>", "<!", "=", "\"", "'", "a", "b", ":", "xmlns", " ",
    "&lt;", "&amp;", "&", "x", "/", "-",
];

/// What damage puts in: markup, spaces and bytes beyond ASCII.
pub const BYTES: &[u8] = b"<<>>//=\"'&;:!?-- \t\n\r\0abx\x80\xff";

/// Within a tag: a whole attribute is one token, so that two stand beside each other.
pub const TAG_TOKENS: [&str; 15] =
    ["=", "\"", "'", "a", "b", ":", "xmlns", " ", "&lt;", "&", ">", "/>", "/", "<", "a='b'"];

/// Every document of up to `most` tokens, in the same order on each run.
pub fn all_short(most: usize, each: &mut dyn FnMut(&[u8])) {
    extend(&mut Vec::new(), &TOKENS, most, each);
}

/// Every tag of up to `most` tokens after its name, as it stands and ended.
pub fn all_tags(most: usize, each: &mut dyn FnMut(&[u8])) {
    extend(&mut b"<a ".to_vec(), &TAG_TOKENS, most, &mut |document| {
        each(document);
        each(&[document, b">"].concat());
    });
}

fn extend(document: &mut Vec<u8>, tokens: &[&str], left: usize, each: &mut dyn FnMut(&[u8])) {
    each(document);
    if left == 0 {
        return;
    }
    let length = document.len();
    for token in tokens {
        document.extend(token.as_bytes());
        extend(document, tokens, left - 1, each);
        document.truncate(length);
    }
}

/// A random document by the grammar that the reader takes.
pub fn random(rng: &mut Prng) -> Vec<u8> {
    let mut document = String::new();
    for _ in 0..rng.below(4) {
        content(rng, &mut document, 0);
    }
    document.into_bytes()
}

/// The same, with a few faults.
pub fn damaged(rng: &mut Prng) -> Vec<u8> {
    let mut document = random(rng);
    for _ in 0..1 + rng.below(3) {
        damage(rng, &mut document, BYTES);
    }
    document
}

/// Documents near the longest length, by what there is much of.
pub fn long() -> Vec<Vec<u8>> {
    let distinct: String = (0..1_000).map(|i| format!(" n{}='{i}'", i * 7 % 1_000)).collect();
    let nested = "<a>".repeat(4_000) + &"</a>".repeat(4_000);
    let documents = [
        "x".repeat(32_768),
        "&lt;".repeat(8_192),
        "<a/>".repeat(8_192),
        "<!>".repeat(10_922),
        nested,
        format!("<a{distinct}/>"),
        format!("<a{}>", " b='1' p:b='2'".repeat(800)),
        format!("<a b='{}'>", "&amp;".repeat(6_000)),
        format!("<a{}", " ".repeat(32_000)),
        format!("<!--{}", "-".repeat(32_000)),
    ];
    documents.map(String::into_bytes).to_vec()
}

fn content(rng: &mut Prng, out: &mut String, depth: usize) {
    match rng.below(8) {
        0 => *out += &text(rng),
        1 => *out += rng.pick(&["<!---->", "<!-- a -- > -->", "<!--->-->", "<!-- <a> --->"]),
        2 => *out += rng.pick(&["<?xml version='1.0'?>", "<??>", "<? > ?>", "<?>?>"]),
        3 => *out += rng.pick(&["<!>", "<!DOCTYPE a>", "<![CDATA[<a>]]>", "<!-a>"]),
        _ => element(rng, out, depth),
    }
}

fn element(rng: &mut Prng, out: &mut String, depth: usize) {
    let name = name(rng);
    *out += &format!("<{name}");
    for _ in 0..rng.below(4) {
        attribute(rng, out);
    }
    *out += space(rng);
    if depth == 6 || rng.once_in(3) {
        *out += "/>";
        return;
    }
    out.push('>');
    for _ in 0..rng.below(4) {
        content(rng, out, depth + 1);
    }
    let close = if rng.once_in(20) { self::name(rng) } else { name };
    *out += &format!("</{close}{}>", space(rng));
}

fn attribute(rng: &mut Prng, out: &mut String) {
    // The space may be missing after a quote.
    *out += if rng.once_in(8) { "" } else { rng.pick(&[" ", "\n", "\t ", "\r"]) };
    let name = if rng.once_in(6) { "xmlns".into() } else { name(rng) };
    let quote = rng.pick(&['"', '\'']);
    let other = if quote == '"' { "'" } else { "\"" };
    let mut value = text(rng).replace(quote, "").replace("<", other);
    if rng.once_in(8) {
        value += "<>/=";
    }
    *out += &format!("{name}{}={}{quote}{value}{quote}", space(rng), space(rng));
}

fn name(rng: &mut Prng) -> String {
    let names = [
        "a", "b", "type", "x:a", "x:y:b", ":a", "a:", "xmlns:a", "xmlnsa", "-", "!a", "a&lt;b", "a\"b",
        "A1_.",
    ];
    rng.pick(&names).to_string()
}

fn space(rng: &mut Prng) -> &'static str {
    rng.pick(&["", "", "", "", " ", "\n", "\t", "\r ", "  "])
}

/// Text without `<`, with entities whole, doubled, nearly there and unknown.
fn text(rng: &mut Prng) -> String {
    let pieces = [
        "a", "b ", " ", "\n", "7", ">", "\"", "'", "=", "&lt;", "&gt;", "&quot;", "&apos;", "&amp;",
        "&amp;lt;", "&amp;amp;", "&", "&&lt;", "&lt", "&LT;", "&#65;", "&amp", ";", "/",
    ];
    (0..rng.below(5)).map(|_| rng.pick(&pieces)).collect()
}

#[cfg(test)]
mod tests {
    use super::*;
    use crate::markup::events::read;
    use std::collections::BTreeSet;

    #[test]
    fn short_documents_meet_every_refusal() {
        let (mut count, mut met) = (0, BTreeSet::new());
        let mut each = |document: &[u8]| {
            count += 1;
            met.insert(read(document).number);
        };
        all_short(3, &mut each);
        all_tags(3, &mut each);
        assert_eq!(count, (1 + 23 + 23 * 23 + 23 * 23 * 23) + 2 * (1 + 15 + 15 * 15 + 15 * 15 * 15));
        assert_eq!(met, BTreeSet::from([0, 11, 12, 13, 14, 15, 16, 17, 18, 19, 20]));
    }

    #[test]
    fn random_documents_are_read_and_damaged_ones_meet_every_refusal() {
        let mut rng = Prng::new(1);
        let (mut whole, mut met) = (0, BTreeSet::new());
        for _ in 0..5000 {
            whole += usize::from(read(&random(&mut rng)).number == 0);
            met.insert(read(&damaged(&mut rng)).number);
        }
        assert!(whole > 4000, "{whole}");
        assert_eq!(met, BTreeSet::from([0, 10, 11, 12, 13, 14, 15, 16, 17, 18, 19, 20]));
    }
}
