//! Stands in: why an occurrence can't be read, which is left out.

use super::segments::ElementDefError;

#[derive(Debug)]
pub enum OccurrenceError {
    EmptyName,
    ZeroMax,
    UnknownUsage { found: String },
    Indistinct { other: String, segment: String },
    QualifierPlaces { other: String, place: String, other_place: String },
    SharedCode { other: String, segment: String, code: String },
    UndefinedElement { key: String, segment: String, element: usize, component: Option<usize> },
    EmptyCodes { key: String },
    BadCodes { key: String, reason: ElementDefError },
    QualifierCodeOutsideElement { code: String, place: String, allowed: Vec<String> },
    BadCodesKey { key: String },
    QualifierInCodes { key: String },
}

pub(super) fn place(_: &str, _: usize, _: Option<usize>) -> String {
    String::new()
}
