//! The listing (docs/RULES.md, "The listing").

use crate::{Answer, Bound, Finding, Origin, Outcome, Place, answer};

/// Bytes and places in each other list that the program `advise` lends.
const LENT: [u64; 4] = [65_536, 512, 512, 512];

/// A finding's line.
fn finding(finding: &Finding) -> String {
    match finding {
        Finding::DuplicateKey { table, row, key, first } => format!("DR {table} {row} {key} {first}"),
        Finding::MissingParent { table, row, parent, value } => {
            let value = value.map_or("-".to_string(), |value| value.to_string());
            format!("MP {table} {row} {parent} {value}")
        }
        Finding::OutOfOrder { table, row, above, reference, highest } => {
            format!("OO {table} {row} {above} {reference} {highest}")
        }
        Finding::MismatchedReference { table, row, ancestor, value, parent, parent_row, expected } => {
            format!("MR {table} {row} {ancestor} {value} {parent} {parent_row} {expected}")
        }
        Finding::Delimiter { origin, place, byte, role } => {
            format!("DV {} {} {byte} {role}", origin_words(origin), place_words(place))
        }
        Finding::NotWritable { origin, place, reason } => {
            format!("NW {} {} {reason}", origin_words(origin), place_words(place))
        }
    }
}

fn origin_words(origin: &Origin) -> String {
    match origin {
        Origin::Cell { table, row, column } => format!("C {table} {row} {column}"),
        Origin::Envelope { field } => format!("E {field}"),
    }
}

fn place_words(place: &Place) -> String {
    let component = place.component.map_or("-".to_string(), |component| component.to_string());
    format!("{} {} {component}", String::from_utf8_lossy(&place.id), place.element)
}

/// The lines of a listing, without the document.
pub fn listing_lines(outcome: &Outcome) -> Vec<String> {
    let [bytes, segments, findings, stops] = outcome.counts();
    let mut lines = vec![format!("done {bytes} {segments} {findings} {stops}")];
    lines.extend(outcome.findings.iter().map(finding));
    lines.extend(outcome.stops.iter().map(|(at, table, row)| format!("R {at} {table} {row}")));
    lines.extend(outcome.segments.iter().map(|(entry, row)| match row {
        Some((table, row)) => format!("S {entry} {table} {row}"),
        None => format!("S {entry} - -"),
    }));
    lines
}

/// The listing: its lines, then the document's bytes and a line feed.
pub fn listing(outcome: &Outcome) -> Vec<u8> {
    let mut out = listing_lines(outcome).join("\n").into_bytes();
    out.push(b'\n');
    out.extend_from_slice(&outcome.document);
    out.push(b'\n');
    out
}

/// What the program prints for a byte string: the listing, or `refused` and the number. That is 7
/// where a list is longer than what the program lends. An error where the Rust gives no answer.
pub fn program(bytes: &[u8], bound: Bound) -> Result<Vec<u8>, String> {
    let refused = |number: u8| format!("refused {number}\n").into_bytes();
    match answer(bytes, bound) {
        Answer::Refused(number) => Ok(refused(number)),
        Answer::Done(outcome) => {
            let fits = outcome.counts().iter().zip(LENT).all(|(&count, lent)| count <= lent);
            Ok(if fits { listing(&outcome) } else { refused(7) })
        }
        Answer::GivenUp => Err("the job takes too long".to_string()),
        Answer::Panicked(message) => Err(format!("the Rust panics: {message}")),
    }
}
