//! Damaged copies: what a careless hand or a broken transfer makes of a text.

use crate::prng::Prng;

/// One deletion, insertion, change, swap, duplication or truncation. An inserted byte is one of
/// `alphabet`.
pub fn damage(rng: &mut Prng, bytes: &mut Vec<u8>, alphabet: &[u8]) {
    if bytes.is_empty() {
        bytes.push(rng.pick(alphabet));
        return;
    }
    let at = rng.below(bytes.len());
    let end = (at + 1 + rng.below(8)).min(bytes.len());
    match rng.below(7) {
        0 => drop(bytes.remove(at)),
        1 => bytes.insert(at, rng.pick(alphabet)),
        2 => bytes[at] = rng.pick(alphabet),
        3 => {
            let other = rng.below(bytes.len());
            bytes.swap(at, other);
        }
        4 => {
            let part = bytes[at..end].to_vec();
            bytes.splice(at..at, part);
        }
        5 => drop(bytes.drain(at..end)),
        _ => bytes.truncate(at),
    }
}
