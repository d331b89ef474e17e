//! How much stack the proved converter takes: it runs on a stack of its own that was painted before, and what
//! is no longer painted was touched. The documents are those that are hard for it and some of real size.

use crate::hard::all;
use crate::library::Converter;
use crate::prng::Prng;
use crate::schema::limits::real;

/// The converter's promise, in bytes.
const ALLOWED: usize = 128 * 1024;

/// Measures every document; false where the promise is broken.
pub fn run() -> bool {
    let mut rng = Prng::new(0x7374_6163);
    let mut documents: Vec<(String, Vec<u8>)> =
        all().into_iter().map(|(name, document)| (name, document.into_bytes())).collect();
    let sizes = [1_800, 30_000, 32_768];
    documents.extend(sizes.map(|length| (format!("real size, {length} bytes"), real(&mut rng, length))));
    let mut converter = Converter::new();
    let most = documents.iter().map(|(name, document)| (converter.stack_used(document), name)).max();
    let (used, name) = most.expect("there are documents");
    println!(
        "stack: {} documents, at most {used} bytes touched ({name}), {ALLOWED} allowed",
        documents.len()
    );
    used < ALLOWED
}
