//! The Rust reference, unchanged: `build.rs` names its files.

// The codec's half of `errors` isn't called, and its comments name things that aren't here.
#![allow(dead_code, rustdoc::broken_intra_doc_links)]

include!(concat!(env!("OUT_DIR"), "/modules.rs"));
