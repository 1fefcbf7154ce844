//! Stands in: the error of reading a document back, which is left out.

use std::fmt;

#[derive(Debug, Clone, PartialEq, Eq)]
pub struct DocumentError;

impl fmt::Display for DocumentError {
    fn fmt(&self, f: &mut fmt::Formatter<'_>) -> fmt::Result {
        write!(f, "a document's error")
    }
}
