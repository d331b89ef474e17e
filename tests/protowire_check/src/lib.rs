//! Stands in for the crate of this name: the two names that the reference's `errors` mentions. They
//! belong to the codec, which isn't ported, so nothing here makes a value of them.

use std::fmt;

pub type BoxError = Box<dyn std::error::Error + Send + Sync>;

#[derive(Debug)]
pub struct Error;

impl fmt::Display for Error {
    fn fmt(&self, f: &mut fmt::Formatter<'_>) -> fmt::Result {
        f.write_str("violations")
    }
}

impl std::error::Error for Error {}
