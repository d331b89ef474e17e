//! Suite `markup`: the events of the proved reader, through crates/test_probe, against the reference's.

pub mod documents;
pub mod events;
pub mod record;

use crate::damage::damage;
use crate::library::{self, OutOfBounds};
use crate::prng::Prng;
use crate::suite::{shown, without_parts, Suite};
use events::Reading;

const RANDOM: usize = 200_000;

pub struct Markup;

impl Suite for Markup {
    type Input = Vec<u8>;
    type Outcome = Result<Reading, OutOfBounds>;
    const NAME: &'static str = "markup";

    fn inputs(&self, each: &mut dyn FnMut(Vec<u8>)) {
        documents::all_short(5, &mut |document| each(document.to_vec()));
        documents::all_tags(5, &mut |document| each(document.to_vec()));
        let mut rng = Prng::new(0x6d61_726b);
        for _ in 0..RANDOM {
            each(documents::random(&mut rng));
            each(documents::damaged(&mut rng));
        }
        for document in documents::long() {
            let mut broken = document.clone();
            damage(&mut rng, &mut broken, documents::BYTES);
            each(document);
            each(broken);
        }
    }

    fn reference(&self, input: &Vec<u8>) -> Self::Outcome {
        Ok(events::read(input))
    }

    fn library(&self, input: &Vec<u8>) -> Self::Outcome {
        library::read(input)
    }

    fn smaller<'a>(&'a self, input: &'a Vec<u8>) -> Box<dyn Iterator<Item = Vec<u8>> + 'a> {
        Box::new(without_parts(input))
    }

    fn size(&self, input: &Vec<u8>) -> usize {
        input.len()
    }

    fn show(&self, input: &Vec<u8>) -> String {
        shown(input)
    }
}
