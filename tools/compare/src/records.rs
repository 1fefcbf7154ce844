//! The Rust's findings, segments and stops as the numbers that the lent lists hold.

use oracle::{Finding, Origin, Outcome, Place};

/// A finding as ten numbers, its kind first.
fn finding(finding: &Finding) -> [u64; 10] {
    let bits = |value: i64| value as u64;
    match finding {
        Finding::DuplicateKey { table, row, key, first } => {
            [0, *table, *row, bits(*key), *first, 0, 0, 0, 0, 0]
        }
        Finding::MissingParent { table, row, parent, value } => {
            let (there, value) = value.map_or((0, 0), |value| (1, bits(value)));
            [1, *table, *row, *parent, there, value, 0, 0, 0, 0]
        }
        Finding::MismatchedReference { table, row, ancestor, value, parent, parent_row, expected } => {
            [2, *table, *row, *ancestor, bits(*value), *parent, *parent_row, bits(*expected), 0, 0]
        }
        Finding::OutOfOrder { table, row, above, reference, highest } => {
            [3, *table, *row, *above, bits(*reference), *highest, 0, 0, 0, 0]
        }
        Finding::Delimiter { origin, place, byte, role } => {
            text(4, origin, place, u64::from(*byte), u64::from(*role))
        }
        Finding::NotWritable { origin, place, reason } => text(5, origin, place, u64::from(*reason), 0),
    }
}

/// A finding on a text: where it comes from and where it goes, the identifier by its bytes, the first the
/// highest, the component plus one or 0.
fn text(kind: u64, origin: &Origin, place: &Place, first: u64, second: u64) -> [u64; 10] {
    let [case, table, row, column] = match *origin {
        Origin::Cell { table, row, column } => [0, table, row, column],
        Origin::Envelope { field } => [1, u64::from(field), 0, 0],
    };
    let id = place.id.iter().fold(0, |number, byte| number * 256 + u64::from(*byte));
    let component = place.component.map_or(0, |component| component + 1);
    [kind, case, table, row, column, id, place.element, component, first, second]
}

/// A finding that nest makes, not the walk.
pub fn is_nests(finding: &Finding) -> bool {
    self::finding(finding)[0] < 3
}

pub fn findings(outcome: &Outcome) -> Vec<native::Finding> {
    outcome.findings.iter().map(finding).collect()
}

/// Three numbers a segment: its first trace entry, its table plus one or 0, its row.
pub fn segments(outcome: &Outcome) -> Vec<u64> {
    let numbers = |(entry, row): &(u64, Option<(u64, u64)>)| match row {
        Some((table, row)) => [*entry, table + 1, *row],
        None => [*entry, 0, 0],
    };
    outcome.segments.iter().flat_map(numbers).collect()
}

pub fn stops(outcome: &Outcome) -> Vec<u64> {
    outcome.stops.iter().flat_map(|(at, table, row)| [*at, *table, *row]).collect()
}

/// The kinds of findings, for the summary.
pub fn kinds(findings: &[Finding]) -> Vec<String> {
    let name = |finding: &Finding| match finding {
        Finding::DuplicateKey { .. } => "DR".to_string(),
        Finding::MissingParent { value: Some(_), .. } => "MP with a value".to_string(),
        Finding::MissingParent { value: None, .. } => "MP without".to_string(),
        Finding::MismatchedReference { .. } => "MR".to_string(),
        Finding::OutOfOrder { .. } => "OO".to_string(),
        Finding::Delimiter { origin: Origin::Cell { .. }, role, .. } => format!("DV of a cell, role {role}"),
        Finding::Delimiter { role, .. } => format!("DV of the envelope, role {role}"),
        Finding::NotWritable { origin: Origin::Cell { .. }, reason, .. } => {
            format!("NW of a cell, reason {reason}")
        }
        Finding::NotWritable { reason, .. } => format!("NW of the envelope, reason {reason}"),
    };
    let mut names: Vec<String> = findings.iter().map(name).collect();
    names.sort_unstable();
    names.dedup();
    names
}
