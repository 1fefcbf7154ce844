//! Stands in: why a spec can't be read, which is left out.

use super::occurrence_error::OccurrenceError;
use super::segments::ElementDefError;

#[derive(Debug)]
pub enum SpecError {
    Json(crate::Error),
    Patch { source: Box<SpecError> },
    BadElementDef { segment: String, position: String, reason: ElementDefError },
    UnmatchedTrigger { loop_name: String, trigger: String, segment_held: bool },
    TriggerQualifierWider { loop_name: String, occurrence: String, trigger: String, code: String },
    TriggerNotFirst { loop_name: String, occurrence: String, pos: usize, other: String, other_pos: usize },
    BadOccurrence { loop_name: String, occurrence: String, reason: Box<OccurrenceError> },
    EmptySegmentId { loop_name: Option<String>, key: String },
}
