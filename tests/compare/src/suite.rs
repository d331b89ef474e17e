//! The shape of every suite: inputs in a fixed order, the reference's outcome, the library's, and
//! one line that says how many were compared.

use std::fmt::Debug;
use std::panic::{catch_unwind, AssertUnwindSafe};
use std::time::Instant;

pub trait Suite {
    type Input: Clone;
    type Outcome: PartialEq + Debug;
    const NAME: &'static str;

    /// Hands out every input, the same ones on each run.
    fn inputs(&self, each: &mut dyn FnMut(Self::Input));
    /// What has to come: by the reference, and by the port's own rules where it departs from it.
    fn reference(&self, input: &Self::Input) -> Self::Outcome;
    fn library(&self, input: &Self::Input) -> Self::Outcome;
    /// Inputs with less in them, the much smaller ones first.
    fn smaller<'a>(&'a self, input: &'a Self::Input) -> Box<dyn Iterator<Item = Self::Input> + 'a>;
    fn size(&self, input: &Self::Input) -> usize;
    fn show(&self, input: &Self::Input) -> String;
}

/// Runs a suite and prints its line; false where anything differs.
pub fn run<S: Suite>(suite: &S) -> bool {
    let start = Instant::now();
    let (mut compared, mut differing) = (0u64, 0u64);
    let mut smallest: Option<S::Input> = None;
    suite.inputs(&mut |input| {
        compared += 1;
        if differs(suite, &input) {
            differing += 1;
            if smallest.as_ref().is_none_or(|s| suite.size(&input) < suite.size(s)) {
                smallest = Some(input);
            }
        }
    });
    let seconds = start.elapsed().as_secs_f64();
    println!("{}: {compared} inputs compared, {differing} differ ({seconds:.1} s)", S::NAME);
    if let Some(input) = smallest {
        let input = shrunk(suite, input);
        println!("  smallest: {}", suite.show(&input));
        println!("  due:      {:?}", suite.reference(&input));
        println!("  library:  {:?}", suite.library(&input));
    }
    differing == 0
}

fn differs<S: Suite>(suite: &S, input: &S::Input) -> bool {
    suite.reference(input) != suite.library(input)
}

/// Takes parts away while the outcomes still differ.
fn shrunk<S: Suite>(suite: &S, mut input: S::Input) -> S::Input {
    loop {
        let next = suite.smaller(&input).find(|smaller| differs(suite, smaller));
        match next {
            Some(smaller) => input = smaller,
            None => return input,
        }
    }
}

/// The bytes without each of their parts: halves first, single bytes last.
pub fn without_parts(bytes: &[u8]) -> impl Iterator<Item = Vec<u8>> + '_ {
    let sizes = std::iter::successors(Some(bytes.len().div_ceil(2)), |n| Some(n / 2));
    sizes.take_while(|&n| n > 0).flat_map(move |n| {
        (0..bytes.len()).step_by(n).map(move |at| {
            let end = (at + n).min(bytes.len());
            [&bytes[..at], &bytes[end..]].concat()
        })
    })
}

/// What the reference answers, or None where it panics.
pub fn caught<T>(call: impl FnOnce() -> T) -> Option<T> {
    catch_unwind(AssertUnwindSafe(call)).ok()
}

/// Keeps caught panics from printing.
pub fn silence_panics() {
    std::panic::set_hook(Box::new(|_| ()));
}

/// Bytes for a reader: the middle of a long text is left out.
pub fn shown(bytes: &[u8]) -> String {
    const ENDS: usize = 30;
    if bytes.len() <= 4 * ENDS {
        return format!("\"{}\"", bytes.escape_ascii());
    }
    let (first, last) = (&bytes[..ENDS], &bytes[bytes.len() - ENDS..]);
    format!("\"{}..{}\" ({} bytes)", first.escape_ascii(), last.escape_ascii(), bytes.len())
}
