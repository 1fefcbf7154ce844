//! What a column answers for a row, and the text of an answer (docs/RULES.md, "Cells", "Dates", "Times", "Numbers").

use crate::*;

/// What stands in a cell.
#[derive(Debug, Clone, Copy, PartialEq, Eq)]
pub enum Cell<'a> {
    Null,
    Bytes(&'a [u8]),
    Integer(i64),
    /// With its scale.
    Decimal(i128, u8),
    /// Days since 1970-01-01.
    Date(i32),
    /// Seconds since midnight.
    Time(i32),
}

impl Column {
    /// The answer for a row. There is none past the end, where validity is missing, and where offsets fall or pass
    /// the data; a null has no value to look at.
    pub fn answer(&self, row: usize) -> Option<Cell<'_>> {
        if !self.validity.bit(row)? {
            return Some(Cell::Null);
        }
        match &self.values {
            Values::Binary(offsets, data) => {
                let start = usize::try_from(*offsets.get(row)?).ok()?;
                let end = usize::try_from(*offsets.get(row + 1)?).ok()?;
                data.get(start..end).map(Cell::Bytes)
            }
            Values::Int64(values, _) => values.get(row).map(|value| Cell::Integer(*value)),
            Values::Decimal128(values, scale) => values.get(row).map(|value| Cell::Decimal(*value, *scale)),
            Values::Date32(values) => values.get(row).map(|days| Cell::Date(*days)),
            Values::Time32(values) => values.get(row).map(|seconds| Cell::Time(*seconds)),
        }
    }
}

/// The cell of a table: null where the table, the column or the answer isn't there.
pub fn cell(job: &Job, table: u32, column: u32, row: usize) -> Cell<'_> {
    let data = job.data.get(table as usize);
    let column = data.and_then(|data| data.columns.get(column as usize)?.as_ref());
    column.and_then(|column| column.answer(row)).unwrap_or(Cell::Null)
}

impl Cell<'_> {
    /// The text at a place with that max, empty for null; none where it isn't writable.
    pub fn text(self, max: Option<u32>) -> Option<Vec<u8>> {
        match self {
            Cell::Null => Some(Vec::new()),
            Cell::Bytes(bytes) => Some(bytes.to_vec()),
            Cell::Integer(value) => Some(value.to_string().into_bytes()),
            Cell::Decimal(value, scale) => Some(decimal(value, usize::from(scale)).into_bytes()),
            Cell::Date(days) => date(days, max, true),
            Cell::Time(seconds) => time(seconds, max, true),
        }
    }
}

/// Minus, whole part, point and fraction; trailing zeros of the fraction go, with its point.
fn decimal(value: i128, scale: usize) -> String {
    let sign = if value < 0 { "-" } else { "" };
    let digits = format!("{:0>width$}", value.unsigned_abs(), width = scale + 1);
    let (whole, fraction) = digits.split_at(digits.len() - scale);
    match fraction.trim_end_matches('0') {
        "" => format!("{sign}{whole}"),
        fraction => format!("{sign}{whole}.{fraction}"),
    }
}

/// CCYYMMDD, or YYMMDD where max is below 8. None for a year outside 1 to 9999, and with `window` for a short one
/// outside 1950 to 2049.
pub fn date(days: i32, max: Option<u32>, window: bool) -> Option<Vec<u8>> {
    let (year, month, day) = calendar::date(i64::from(days));
    let short = max.is_some_and(|max| max < 8);
    if !(1..=9999).contains(&year) || short && window && !(1950..=2049).contains(&year) {
        return None;
    }
    let text = format!("{year:04}{month:02}{day:02}");
    Some(text.as_bytes()[if short { 2 } else { 0 }..].to_vec())
}

/// HHMM, and SS where seconds are set. None outside one day. Where max is below 6 set seconds have no room: with
/// `whole` there is no text then, else they go.
pub fn time(seconds: i32, max: Option<u32>, whole: bool) -> Option<Vec<u8>> {
    if !(0..86_400).contains(&seconds) {
        return None;
    }
    let minutes = format!("{:02}{:02}", seconds / 3_600, seconds / 60 % 60);
    let short = max.is_some_and(|max| max < 6);
    match seconds % 60 {
        0 => Some(minutes.into_bytes()),
        _ if short && whole => None,
        _ if short => Some(minutes.into_bytes()),
        left => Some(format!("{minutes}{left:02}").into_bytes()),
    }
}

#[cfg(test)]
mod tests {
    use super::*;

    fn written(cell: Cell, max: u32) -> String {
        let text = cell.text((max > 0).then_some(max)).unwrap_or_else(|| b"not written".to_vec());
        String::from_utf8(text).expect("ASCII")
    }

    /// docs/RULES.md, "Edge values".
    #[test]
    fn edge_values() {
        let no = "not written";
        for (days, max, text) in [
            (0, 8, "19700101"),
            (-719_162, 8, "00010101"),
            (-719_163, 8, no),
            (2_932_896, 8, "99991231"),
            (2_932_897, 8, no),
            (i32::MAX, 8, no),
            (i32::MIN, 6, no),
            (-7_305, 6, "500101"),
            (-7_306, 6, no),
            (29_219, 6, "491231"),
            (29_220, 6, no),
            (29_220, 0, "20500101"),
        ] {
            assert_eq!(written(Cell::Date(days), max), text, "{days} days");
        }
        for (seconds, max, text) in [
            (0, 0, "0000"),
            (3_661, 0, "010101"),
            (3_661, 4, no),
            (3_660, 4, "0101"),
            (86_399, 6, "235959"),
            (86_400, 0, no),
            (-1, 0, no),
        ] {
            assert_eq!(written(Cell::Time(seconds), max), text, "{seconds} seconds");
        }
        for (value, scale, text) in [
            (-150, 2, "-1.5"),
            (5, 2, "0.05"),
            (0, 2, "0"),
            (1_200, 2, "12"),
            (-5, 0, "-5"),
            (i128::MIN, 38, "-1.70141183460469231731687303715884105728"),
            (i128::MIN, 0, "-170141183460469231731687303715884105728"),
        ] {
            assert_eq!(written(Cell::Decimal(value, scale), 0), text, "{value} by {scale}");
        }
    }

    /// Envelope dates and times keep no window and no seconds.
    #[test]
    fn short_fields() {
        let days = calendar::days(1850, 3, 4).expect("a date") as i32;
        assert_eq!(date(days, Some(6), false).as_deref(), Some(&b"500304"[..]));
        assert_eq!(time(34_259, Some(4), false).as_deref(), Some(&b"0930"[..]));
    }

    #[test]
    fn answers() {
        let mut column = Column::binary(&[Some("A"), None, Some("")]);
        assert_eq!(column.answer(0), Some(Cell::Bytes(b"A")));
        assert_eq!(column.answer(1), Some(Cell::Null));
        assert_eq!(column.answer(2), Some(Cell::Bytes(b"")));
        assert_eq!(column.answer(3), None);
        column.values = Values::Binary(vec![0, 9], b"A".to_vec());
        assert_eq!(column.answer(0), None);
        assert_eq!(column.answer(1), Some(Cell::Null));
        assert_eq!(column.answer(2), None);
    }
}
