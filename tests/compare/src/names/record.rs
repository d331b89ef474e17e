//! Records answers of the reference for crates/test_names. The form of a line is described in its
//! src/main.rt.

use std::path::Path;

use super::inputs::{random_input, WORDS};
use super::{Conversion, Input, Room};
use crate::prng::Prng;
use crate::record::{self, hex};

const ANSWERS: usize = 1_400;
const LONGEST: usize = 40;
const FILL: u8 = b'#';

/// An input, the `_` that stand before its value name, and the output's length.
struct Line {
    input: Input,
    pad: usize,
    room: usize,
}

impl Line {
    fn new(input: Input) -> Self {
        let room = input.room_bytes();
        Line { input, pad: 0, room }
    }

    fn question(&self) -> String {
        let Input { conversion, value, enum_name, .. } = &self.input;
        let letter = match conversion {
            Conversion::Snake => 'n',
            Conversion::Camel => 'c',
            Conversion::Screaming => 'u',
            Conversion::Pascal => 'p',
            Conversion::Singular => 's',
            Conversion::Strip => 'x',
        };
        let (room, pad, v, e) = (self.room, self.pad, value.len(), enum_name.len());
        format!("{letter} {room:04x} {pad:04x} {v:04x} {e:04x} {}{}\n", hex(value), hex(enum_name))
    }

    fn answer(&self) -> String {
        let mut whole = self.input.clone();
        whole.value = [vec![b'_'; self.pad], whole.value].concat();
        let a = whole.due(&vec![FILL; self.room]);
        format!("{} {} {} {} {}\n", a.number, a.offset, a.place, a.n, hex(&a.output))
    }
}

fn input(conversion: Conversion, value: &str, enum_name: &str, room: Room) -> Input {
    Input { conversion, value: value.into(), enum_name: enum_name.into(), room }
}

/// The worked examples, which stand first in `WORDS`, and other words, by each conversion.
fn words(lines: &mut Vec<Line>) {
    for word in WORDS {
        for conversion in &Conversion::ALL[..5] {
            for room in Room::ALL {
                lines.push(Line::new(input(*conversion, word, "", room)));
            }
        }
    }
    for (value, enum_name) in [
        ("SIDE_BUY", "Side"),
        ("SIDE_BUY", "side"),
        ("SIDEBUY", "Side"),
        ("SIDE_", "Side"),
        ("SIDE", "Side"),
        ("ORD_TYPE_MARKET", "OrdType"),
        ("ORD_TYPE_MARKET", "ordType"),
        ("ORDTYPE_MARKET", "OrdType"),
        ("_A_b", ""),
        ("", ""),
        ("", "Side"),
        ("side_BUY", "Side"),
        ("SIDE__BUY_", "Side"),
    ] {
        for room in Room::ALL {
            lines.push(Line::new(input(Conversion::Strip, value, enum_name, room)));
        }
    }
}

/// Names around the longest length: 1 against an answer or 3, and 10 far from the beginning.
fn long(lines: &mut Vec<Line>) {
    for conversion in Conversion::ALL {
        for (pad, tail) in [
            (32_764, "Abcd"),
            (32_765, "Abcd"),
            (32_768, ""),
            (32_769, ""),
            (32_767, "\u{e9}"),
            (300, "\u{e9}A"),
        ] {
            let input = input(conversion, tail, "", Room::Exact);
            lines.push(Line { input, pad, room: 12 });
        }
    }
}

fn random(lines: &mut Vec<Line>) {
    let mut rng = Prng::new(0x7265_6330);
    while lines.len() < ANSWERS {
        let input = random_input(&mut rng);
        if input.value.len() + input.enum_name.len() <= LONGEST {
            lines.push(Line::new(input));
        }
    }
}

fn bytes_beyond_ascii(lines: &mut Vec<Line>) {
    for conversion in Conversion::ALL {
        for (value, enum_name) in [("\u{e9}", ""), ("ab\u{e9}", ""), ("A_\u{7f}\u{80}", "")] {
            lines.push(Line::new(input(conversion, value, enum_name, Room::Exact)));
        }
    }
    for (value, enum_name) in [("ab", "\u{e9}"), ("abc\u{e9}", "\u{e9}"), ("", "abcde\u{e9}")] {
        lines.push(Line::new(input(Conversion::Strip, value, enum_name, Room::Roomy)));
    }
}

/// Writes `stdin` and `stdout` into a folder.
pub fn write(folder: &Path) -> bool {
    let mut lines = Vec::new();
    words(&mut lines);
    bytes_beyond_ascii(&mut lines);
    long(&mut lines);
    random(&mut lines);
    let questions = lines.iter().map(Line::question).collect();
    record::write(folder, questions, lines.iter().map(Line::answer).collect())
}
