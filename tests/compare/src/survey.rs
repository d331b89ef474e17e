//! Runs the reference alone over random schemas, and counts the outcomes: so one sees what the
//! generators reach.

use std::collections::BTreeMap;

use crate::prng::Prng;
use crate::schema::{documents as schema, due};

/// Documents by the number of their outcome; 10 are those with bytes beyond ASCII.
#[derive(Default)]
struct Tally(BTreeMap<u32, u64>);

impl Tally {
    fn count(&mut self, number: u32) {
        *self.0.entry(number).or_default() += 1;
    }

    fn print(&self, name: &str) {
        let all: u64 = self.0.values().sum();
        let each: Vec<String> = self.0.iter().map(|(number, count)| format!("{number}: {count}")).collect();
        println!("{name}: {all} documents read by the reference; {}", each.join(", "));
    }
}

pub fn run() -> bool {
    let mut rng = Prng::new(0x7363_6865);
    let (mut models, mut sources) = (Tally::default(), Tally::default());
    for _ in 0..100_000 {
        for document in [schema::random(&mut rng), schema::damaged(&mut rng)] {
            models.count(due::schema(&document, due::RECORDS, due::TEXT).map_or_else(|r| r.number, |_| 0));
            sources.count(due::source(&document, due::RECORDS, due::TEXT).map_or_else(|r| r.number, |_| 0));
        }
    }
    models.print("schemas, random and damaged, to their models");
    sources.print("schemas, random and damaged, to their sources");
    true
}
