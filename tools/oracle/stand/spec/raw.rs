//! Stands in: the shapes a spec is read from, which is left out.

use std::collections::BTreeMap;

pub(super) struct RawElement {
    pub(super) name: String,
    pub(super) kind: String,
    pub(super) scale: Option<u8>,
    pub(super) required: bool,
    pub(super) min: Option<usize>,
    pub(super) max: Option<usize>,
    pub(super) composite: BTreeMap<String, RawElement>,
    pub(super) codes: Option<Vec<String>>,
}

pub(super) struct RawQualifier {
    pub(super) element: usize,
    pub(super) component: Option<usize>,
    pub(super) codes: Vec<String>,
}

pub(super) struct RawOccurrence {
    pub(super) segment: String,
    pub(super) pos: usize,
    pub(super) usage: Option<String>,
    pub(super) max: Option<usize>,
    pub(super) qualifier: Option<RawQualifier>,
    pub(super) codes: BTreeMap<String, Vec<String>>,
}
