//! The reference and the proved converter in one process on the same inputs: medians and their ratio, once with each side
//! called by itself, some calls in a row, and once in turns, call by call. In turns each call finds the processor's branch
//! predictor as the other side left it, which costs the faster side more. The work buffers and the output are as the
//! last call left them. Both sides are given bytes, so the reference's call has the test in it that makes a `str` of them.

use std::hint::black_box;
use std::time::{Duration, Instant};

use reference::xmltoproto::xml_to_proto;

use crate::automaton::Automaton;
use crate::hard::{self, most};
use crate::library::Converter;
use crate::prng::Prng;
use crate::published::{dense, schema, smallest};
use crate::schema::limits::real;

/// Both sides are called for so long in each of the two ways.
const BUDGET: Duration = Duration::from_millis(500);
const LEAST: usize = 7;
/// So many calls in a row are a side's by itself.
const ROW: usize = 24;

/// Microseconds of both sides.
#[derive(Clone, Copy)]
struct Times {
    rust: f64,
    proved: f64,
}

impl Times {
    fn ratio(self) -> f64 {
        self.proved / self.rust
    }
}

/// In both ways.
#[derive(Clone, Copy)]
struct Measured {
    itself: Times,
    turns: Times,
}

/// The middle of a list of times.
fn median(mut times: Vec<f64>) -> f64 {
    times.sort_by(f64::total_cmp);
    times[times.len() / 2]
}

/// Both sides have to give the same source, or to refuse.
fn agree(document: &str, converter: &mut Converter) {
    let due = xml_to_proto(document).map(String::into_bytes);
    let answer = converter.run(document.as_bytes());
    match due {
        Ok(source) => assert!(answer == Ok(source), "the sources differ"),
        Err(_) => assert!(answer.is_err(), "a refusal is due"),
    }
}

/// Both sides, which have to agree.
fn measure(document: &str) -> Measured {
    let mut converter = Converter::new();
    agree(document, &mut converter);
    timed(document, &mut converter)
}

/// Microseconds of one call.
fn time(call: impl FnOnce()) -> f64 {
    let at = Instant::now();
    call();
    at.elapsed().as_secs_f64() * 1e6
}

/// The reference on a document's bytes, which whoever has no `str` has to test first.
fn reference(document: &[u8]) {
    if let Ok(text) = str::from_utf8(document) {
        drop(black_box(xml_to_proto(text)));
    }
}

/// The medians of calls in rows of so many, of one side and then of the other.
fn in_rows(document: &str, converter: &mut Converter, row: usize) -> Times {
    let (mut rust, mut proved) = (Vec::new(), Vec::new());
    let start = Instant::now();
    while rust.len() < LEAST || start.elapsed() < BUDGET {
        for _ in 0..row {
            rust.push(time(|| reference(black_box(document.as_bytes()))));
        }
        for _ in 0..row {
            proved.push(time(|| {
                black_box(converter.call(black_box(document.as_bytes())));
            }));
        }
    }
    Times { rust: median(rust), proved: median(proved) }
}

fn timed(document: &str, converter: &mut Converter) -> Measured {
    Measured { itself: in_rows(document, converter, ROW), turns: in_rows(document, converter, 1) }
}

/// An enum whose source is 3 MB.
fn long_source() -> String {
    let name = "aB".repeat(1_000);
    most(&format!("<enum name='{name}'>"), |_| "<validValue/>".into(), "</enum>", 1_020)
}

/// A converter with an output of 65,536 bytes, which refuses that source with 3 after measuring it.
fn refusing(document: &str) -> Converter {
    let mut converter = Converter::new();
    agree(document, &mut converter);
    converter.room(65_536);
    assert!(converter.run(document.as_bytes()) == Err(3), "3 is due");
    converter
}

fn line(name: &str, document: &str, Measured { itself, turns }: Measured) {
    println!(
        "{name}: {} bytes, by itself Rust {:.1} us, proved {:.2} us, ratio {:.3}; in turns {:.1}, {:.2}, {:.3}",
        document.len(),
        itself.rust,
        itself.proved,
        itself.ratio(),
        turns.rust,
        turns.proved,
        turns.ratio(),
    );
}

/// The schemas as exchanges publish them, of about 0.6, 1, 10 and 30 KB, and what the other documents are made from.
fn published() -> (Vec<String>, Prng) {
    let mut rng = Prng::new(0x6265_6e63);
    let mut documents = vec![smallest(&mut Prng::new(0x736d_616c))];
    documents.extend([600, 10_000, 30_000].map(|length| schema(&mut rng, length)));
    (documents, rng)
}

/// A byte automaton beside the reference, which is by itself too.
fn limit(document: &str) {
    let automaton = Automaton::new();
    let (mut rust, mut bytes) = (Vec::new(), Vec::new());
    let start = Instant::now();
    while rust.len() < LEAST || start.elapsed() < BUDGET {
        rust.extend((0..ROW).map(|_| time(|| reference(black_box(document.as_bytes())))));
        bytes.extend((0..ROW).map(|_| {
            time(|| {
                black_box(automaton.run(black_box(document.as_bytes())));
            })
        }));
    }
    let (rust, bytes) = (median(rust), median(bytes));
    println!("a byte automaton over {} bytes: {bytes:.2} us, ratio {:.3}", document.len(), bytes / rust);
}

pub fn run() -> bool {
    drop(std::panic::take_hook());
    let (documents, mut rng) = published();
    for document in &documents {
        line("as published", document, measure(document));
    }
    limit(documents.last().expect("there are documents"));
    let document = dense(&mut rng, 250, 420);
    line("250 types, 420 fields that name them", &document, measure(&document));
    for length in [4_000, 8_000, 16_000, 32_000] {
        let document = schema(&mut rng, length);
        let Measured { itself, turns } = measure(&document);
        let each = |us: f64| us * 1e3 / document.len() as f64;
        println!(
            "as published, {} bytes: {:.2} ns a byte by itself, {:.2} in turns",
            document.len(),
            each(itself.proved),
            each(turns.proved),
        );
    }
    let document = long_source();
    let times = timed(&document, &mut refusing(&document));
    line("values of an enum name of 2,000 bytes, refused with 3", &document, times);
    for (name, length) in [("small", 1_800), ("real size", 30_000)] {
        let document = String::from_utf8(real(&mut rng, length)).expect("the document is ASCII");
        line(name, &document, measure(&document));
    }
    let mut hard: Vec<_> =
        hard::all().into_iter().map(|(name, document)| (name, measure(&document), document)).collect();
    let worse = |m: &Measured| m.itself.ratio().max(m.turns.ratio());
    hard.sort_by(|a, b| worse(&b.1).total_cmp(&worse(&a.1)));
    for (name, times, document) in &hard {
        line(name, document, *times);
    }
    let document = schema(&mut rng, 30_000);
    let tests = (0..999).map(|_| {
        time(|| {
            let _ = black_box(str::from_utf8(black_box(document.as_bytes())));
        })
    });
    println!("in the Rust's time: {:.2} us to test {} bytes", median(tests.collect()), document.len());
    true
}

#[cfg(test)]
mod tests {
    use super::*;

    /// What the benchmark needs to be right, without its times.
    #[test]
    fn the_sides_agree() {
        let mut converter = Converter::new();
        let (documents, mut rng) = published();
        for document in &documents {
            agree(document, &mut converter);
        }
        agree(&dense(&mut rng, 250, 420), &mut converter);
        for (_, document) in hard::all() {
            agree(&document, &mut converter);
        }
        refusing(&long_source());
    }
}
