//! The names that are compared: all short ones over a telling alphabet, then random and damaged
//! ones, then those around the longest length.

use super::{Conversion, Input, Room, MAX_NAME};
use crate::damage::damage;
use crate::prng::Prng;

/// The ends of the letter ranges and their neighbours, the letters of the plural endings, and bytes
/// beyond ASCII.
const TELLING: &[u8] = b"AZazseiy_09 \0@[`{\x7f\x80\xff";
/// For pairs: enough to make prefixes, breaks and near misses.
const PAIRS: &[u8] = b"ABa_1";
/// For most random names.
const LETTERS: &[u8] = b"ABCDEFGHIJKLMNOPQRSTUVWXYZabcdefghijklmnopqrstuvwxyzsssieyy____0123456789";

pub const WORDS: &[&str] = &[
    "MDEntryPx", "orderID", "leg2ID", "entries", "s", "ies", "class", "Class", "ss", "es", "y", "Series",
    "noMDEntries", "partyIDs", "SIDE_BUY", "SIDE_SELL_SHORT", "Side", "OrdType", "ORD_TYPE_MARKET",
    "HTTPServer", "aB", "AB", "Ab", "__a__b", "a_", "_A", "A1b2C3", "MessageHeader", "group_size_encoding",
];

const RANDOM: usize = 300_000;
const LONG: [usize; 7] = [32_766, 32_767, 32_768, 32_769, 32_770, 40_000, 65_536];

pub fn all(each: &mut dyn FnMut(Input)) {
    short(each);
    pairs(each);
    prefixed(each);
    random(each);
    long(each);
    long_pairs(each);
}

/// Every text of up to `most` bytes over an alphabet.
fn texts(alphabet: &[u8], most: usize) -> Vec<Vec<u8>> {
    let mut all = vec![Vec::new()];
    let mut from = 0;
    for _ in 0..most {
        let to = all.len();
        for i in from..to {
            for b in alphabet {
                all.push([&all[i][..], &[*b]].concat());
            }
        }
        from = to;
    }
    all
}

/// All names of up to three bytes, by the five conversions of one name, with each room.
fn short(each: &mut dyn FnMut(Input)) {
    for value in texts(TELLING, 3) {
        for conversion in &Conversion::ALL[..5] {
            for room in Room::ALL {
                each(Input { conversion: *conversion, value: value.clone(), enum_name: Vec::new(), room });
            }
        }
    }
}

fn strip(value: Vec<u8>, enum_name: Vec<u8>, room: Room) -> Input {
    Input { conversion: Conversion::Strip, value, enum_name, room }
}

/// All pairs of short names.
fn pairs(each: &mut dyn FnMut(Input)) {
    let names = texts(PAIRS, 3);
    for value in &names {
        for enum_name in &names {
            for room in Room::ALL {
                each(strip(value.clone(), enum_name.clone(), room));
            }
        }
    }
    let names = texts(TELLING, 1);
    for value in texts(TELLING, 2) {
        for enum_name in &names {
            each(strip(value.clone(), enum_name.clone(), Room::Exact));
        }
    }
}

/// Value names made of an enum's prefix, whole or nearly.
fn prefixed(each: &mut dyn FnMut(Input)) {
    for enum_name in texts(TELLING, 3) {
        for (join, tail) in [("_", ""), ("_", "A_b"), ("__", "a"), ("", "b"), ("_", "\0")] {
            each(strip(with_prefix(&enum_name, join, tail.as_bytes()), enum_name.clone(), Room::Exact));
        }
    }
}

/// The enum's name in capitals with its breaks, then `join` and `tail`. It repeats the rule only to
/// make telling inputs; nothing is compared with it.
fn with_prefix(enum_name: &[u8], join: &str, tail: &[u8]) -> Vec<u8> {
    let mut value = Vec::new();
    for (i, b) in enum_name.iter().enumerate() {
        if i > 0 && b.is_ascii_uppercase() && enum_name[i - 1].is_ascii_lowercase() {
            value.push(b'_');
        }
        value.push(b.to_ascii_uppercase());
    }
    value.extend(join.as_bytes());
    value.extend(tail);
    value
}

/// A length at or beside a boundary, the short ones more often.
fn length(rng: &mut Prng) -> usize {
    let around = rng.pick(&[0, 1, 2, 3, 4, 4, 6, 8, 8, 12, 16, 16, 24, 32, 64, 128, 256, 1024]);
    around + rng.below(3) - usize::from(around > 0)
}

fn random_name(rng: &mut Prng, length: usize) -> Vec<u8> {
    let mut name: Vec<u8> = match rng.below(8) {
        0 => (0..length).map(|_| rng.below(128) as u8).collect(),
        1 => (0..length).map(|_| rng.pick(TELLING)).collect(),
        2 => (0..length).map(|_| rng.pick(PAIRS)).collect(),
        _ => (0..length).map(|_| rng.pick(LETTERS)).collect(),
    };
    match rng.below(8) {
        0 if length >= 3 => name.splice(length - 3.., *b"ies").for_each(drop),
        1 if length >= 2 => name.splice(length - 2.., *b"ss").for_each(drop),
        2 if length >= 1 => name[length - 1] = b's',
        3 if length >= 1 && rng.once_in(4) => name[rng.below(length)] = 128 + rng.below(128) as u8,
        _ => (),
    }
    name
}

fn damaged_word(rng: &mut Prng) -> Vec<u8> {
    let mut name = rng.pick(WORDS).as_bytes().to_vec();
    for _ in 0..rng.below(4) {
        let alphabet = if rng.once_in(6) { TELLING } else { LETTERS };
        damage(rng, &mut name, alphabet);
    }
    name
}

fn any_name(rng: &mut Prng) -> Vec<u8> {
    if rng.once_in(2) {
        damaged_word(rng)
    } else {
        let length = length(rng);
        random_name(rng, length)
    }
}

/// A random input; for `Strip` the prefix mostly stands there, whole or damaged.
pub fn random_input(rng: &mut Prng) -> Input {
    let conversion = rng.pick(&Conversion::ALL);
    let room = rng.pick(&Room::ALL);
    let mut value = any_name(rng);
    let mut enum_name = Vec::new();
    if conversion == Conversion::Strip {
        enum_name = any_name(rng);
        if !rng.once_in(3) {
            value = with_prefix(&enum_name, "_", &value);
        }
        if rng.once_in(4) {
            damage(rng, &mut value, LETTERS);
        }
    }
    Input { conversion, value, enum_name, room }
}

fn random(each: &mut dyn FnMut(Input)) {
    let mut rng = Prng::new(0x6e61_6d65);
    for _ in 0..RANDOM {
        each(random_input(&mut rng));
    }
}

/// Names around the longest length. In some a byte beyond ASCII stands first, last or past the
/// limit, since 1 comes before 10.
fn long(each: &mut dyn FnMut(Input)) {
    let mut rng = Prng::new(0x6c6f_6e67);
    for length in LONG {
        for conversion in &Conversion::ALL[..5] {
            for round in 0..9 {
                let mut value = random_name(&mut rng, length);
                if round >= 6 {
                    value[[0, length - 1, MAX_NAME.min(length - 1)][round % 3]] = 200;
                }
                each(Input {
                    conversion: *conversion,
                    value,
                    enum_name: Vec::new(),
                    room: Room::ALL[round % 3],
                });
            }
        }
    }
}

/// Pairs of short and long names, each with and without a byte beyond ASCII; and long prefixes.
fn long_pairs(each: &mut dyn FnMut(Input)) {
    let mut rng = Prng::new(0x7061_6972);
    let lengths = [3, MAX_NAME - 1, MAX_NAME, MAX_NAME + 1];
    let mut names = Vec::new();
    for length in lengths {
        let name: Vec<u8> = (0..length).map(|_| rng.pick(LETTERS)).collect();
        let mut beyond = name.clone();
        beyond[length - 2] = 128;
        names.extend([name, beyond]);
    }
    for value in &names {
        for enum_name in &names {
            for room in Room::ALL {
                each(strip(value.clone(), enum_name.clone(), room));
            }
        }
    }
    // Capitals have no breaks, so the value name is longer by what is joined.
    for length in MAX_NAME - 4..=MAX_NAME {
        let enum_name: Vec<u8> = (0..length).map(|_| rng.pick(b"ABC_")).collect();
        for (join, tail) in [("_", ""), ("_", "a"), ("", "_B"), ("", "")] {
            each(strip(with_prefix(&enum_name, join, tail.as_bytes()), enum_name.clone(), Room::Exact));
        }
    }
}
