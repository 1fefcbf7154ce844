//! What the elements of an envelope segment hold (docs/RULES.md, "Envelope fields"; positions as X12 has
//! them).

use crate::cell::{date, time};
use crate::*;

/// A field of the envelope.
#[derive(Debug, Clone, Copy, PartialEq, Eq)]
enum Field {
    SenderQualifier,
    SenderId,
    ReceiverQualifier,
    ReceiverId,
    ApplicationSender,
    ApplicationReceiver,
    Date,
    Time,
    Repetition,
    UsageIndicator,
    Component,
}

/// The fields of ISA, GS and ST with their elements.
const LAYOUT: [&[(u32, Field)]; 3] = [
    &[
        (5, Field::SenderQualifier),
        (6, Field::SenderId),
        (7, Field::ReceiverQualifier),
        (8, Field::ReceiverId),
        (9, Field::Date),
        (10, Field::Time),
        (11, Field::Repetition),
        (15, Field::UsageIndicator),
        (16, Field::Component),
    ],
    &[(2, Field::ApplicationSender), (3, Field::ApplicationReceiver), (4, Field::Date), (5, Field::Time)],
    &[],
];

/// Where the text of an envelope element comes from.
#[derive(Debug, Clone, Copy, PartialEq, Eq)]
pub enum Given {
    /// The envelope or the version: tried for separators.
    Text,
    /// A date or time of the envelope.
    Moment,
    /// A separator, given as a field.
    Separator,
    /// A code of the spec, or nothing at all.
    Code,
}

/// The text of an element that isn't the opener, and where it comes from: the envelope's field, the version's first
/// value, or the first code; padded, but for a date or time that isn't writable and a separator that isn't there.
pub fn text(job: &Job, depth: u32, id: &[u8], at: u32, def: &ElementDef) -> (Vec<u8>, Given) {
    let fields = LAYOUT.get(depth as usize).copied().unwrap_or_default();
    let version = job.spec.version.as_ref().filter(|version| version.segment == id && version.element == at);
    let (text, given) = match (fields.iter().find(|(element, _)| *element == at), version) {
        (Some((_, field)), _) => of_field(&job.envelope, *field, def),
        (None, Some(version)) => (Some(version.value.clone()), Given::Text),
        (None, None) => (Some(def.codes.first().cloned().unwrap_or_default()), Given::Code),
    };
    (text.map(|text| padded(text, def)).unwrap_or_default(), given)
}

/// The text of a field; none for what can't be written.
fn of_field(envelope: &Envelope, field: Field, def: &ElementDef) -> (Option<Vec<u8>>, Given) {
    let text = match field {
        Field::Date => return (date(envelope.date, def.max, false), Given::Moment),
        Field::Time => return (time(envelope.time, def.max, false), Given::Moment),
        Field::Component => return (Some(vec![envelope.component]), Given::Separator),
        Field::Repetition => match def.codes.first() {
            Some(code) => code.clone(),
            None => return (envelope.repetition.map(|byte| vec![byte]), Given::Separator),
        },
        Field::SenderQualifier => envelope.sender_qualifier.clone(),
        Field::SenderId => envelope.sender_id.clone(),
        Field::ReceiverQualifier => envelope.receiver_qualifier.clone(),
        Field::ReceiverId => envelope.receiver_id.clone(),
        Field::UsageIndicator => envelope.usage_indicator.clone(),
        Field::ApplicationSender => application(&envelope.application_sender, &envelope.sender_id),
        Field::ApplicationReceiver => application(&envelope.application_receiver, &envelope.receiver_id),
    };
    (Some(text), Given::Text)
}

/// The application's name, or the identifier without white space at its end.
fn application(name: &Option<Vec<u8>>, identifier: &[u8]) -> Vec<u8> {
    let trimmed = || {
        let end = identifier.iter().rposition(|byte| !matches!(byte, 9..=13 | 32)).map_or(0, |at| at + 1);
        identifier[..end].to_vec()
    };
    name.clone().unwrap_or_else(trimmed)
}

/// Numbers are padded left with 0, fixed widths right with spaces.
fn padded(text: Vec<u8>, def: &ElementDef) -> Vec<u8> {
    match (def.kind, def.min) {
        (Kind::N(_), min) => zeros(text, min),
        (_, Some(width)) if def.max == Some(width) => {
            let missing = (width as usize).saturating_sub(text.len());
            [text, vec![b' '; missing]].concat()
        }
        _ => text,
    }
}

/// Zeros in front, up to a width.
pub fn zeros(text: Vec<u8>, width: Option<u32>) -> Vec<u8> {
    let missing = (width.unwrap_or(0) as usize).saturating_sub(text.len());
    [vec![b'0'; missing], text].concat()
}
