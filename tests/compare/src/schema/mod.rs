//! Suite `schema`: the model of a document by the proved library, through crates/test_probe, against the
//! reference's.

pub mod documents;
pub mod due;
pub mod dump;
pub mod limits;
pub mod record;

use crate::damage::damage;
use crate::library::{self, OutOfBounds};
use crate::markup;
use crate::markup::documents::BYTES;
use crate::markup::events::Reading;
use crate::prng::Prng;
use crate::suite::{shown, without_parts, Suite};
use limits::Call;

const RANDOM: usize = 100_000;
const MARKUP: usize = 20_000;
const REAL: usize = 150;

pub struct Schemas;

/// Documents of all kinds, the same ones on each run for a seed.
pub fn calls(seed: u64, random: usize, steps: usize, each: &mut dyn FnMut(Call)) {
    let mut rng = Prng::new(seed);
    limits::limits().into_iter().for_each(&mut *each);
    limits::structures(steps, &mut |document| each(Call::new(document)));
    for _ in 0..random {
        each(Call::new(documents::random(&mut rng)));
        each(Call::new(documents::damaged(&mut rng)));
    }
    for _ in 0..MARKUP {
        each(Call::new(markup::documents::random(&mut rng)));
        each(Call::new(markup::documents::damaged(&mut rng)));
    }
    for _ in 0..REAL {
        let length = 2_000 + rng.below(30_768);
        let document = limits::real(&mut rng, length);
        let mut broken = document.clone();
        damage(&mut rng, &mut broken, BYTES);
        each(Call::new(document));
        each(Call::new(broken));
    }
}

/// What has to come.
pub fn model(call: &Call) -> Reading {
    match due::schema(&call.document, call.records, call.text) {
        Ok(schema) => Reading { number: 0, offset: 0, place: 0, events: dump::model(&schema) },
        Err(r) => Reading { number: r.number, offset: r.offset, place: r.place, events: Vec::new() },
    }
}

/// Calls with a smaller document.
pub fn smaller(call: &Call) -> impl Iterator<Item = Call> + '_ {
    without_parts(&call.document).map(|document| Call { document, ..*call })
}

pub fn show(call: &Call) -> String {
    format!("{} records {} text {}", shown(&call.document), call.records, call.text)
}

impl Suite for Schemas {
    type Input = Call;
    type Outcome = Result<Reading, OutOfBounds>;
    const NAME: &'static str = "schema";

    fn inputs(&self, each: &mut dyn FnMut(Call)) {
        calls(0x7363_6865, RANDOM, 5, each);
    }

    fn reference(&self, input: &Call) -> Self::Outcome {
        Ok(model(input))
    }

    fn library(&self, input: &Call) -> Self::Outcome {
        library::schema(input)
    }

    fn smaller<'a>(&'a self, input: &'a Call) -> Box<dyn Iterator<Item = Call> + 'a> {
        Box::new(smaller(input))
    }

    fn size(&self, input: &Call) -> usize {
        input.document.len()
    }

    fn show(&self, input: &Call) -> String {
        show(input)
    }
}

#[cfg(test)]
mod tests {
    use super::*;
    use std::collections::BTreeSet;

    #[test]
    fn calls_meet_every_refusal() {
        crate::suite::silence_panics();
        let mut met = BTreeSet::new();
        calls(1, 2_000, 3, &mut |call| {
            met.insert(model(&call).number);
        });
        let due = [0, 1, 2, 10, 11, 12, 13, 14, 15, 16, 17, 18, 19, 20, 30, 31, 32, 33, 34, 35];
        assert_eq!(met, BTreeSet::from(due));
    }

    /// A real-size schema is accepted, with many items.
    #[test]
    fn real_schemas_are_accepted() {
        let mut rng = Prng::new(5);
        for length in [1_200, 30_000, 32_768] {
            let call = Call::new(limits::real(&mut rng, length));
            let reading = model(&call);
            assert!(call.document.len() <= due::LONGEST && reading.number == 0, "{reading:?}");
            let items = reading.events.iter().filter(|b| (0x81..0x8a).contains(*b)).count();
            assert!(length < 30_000 || (300..=900).contains(&items), "{items}");
        }
    }
}
