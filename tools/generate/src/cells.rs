//! Cells and columns: plausible ones, hostile ones, and columns whose lists don't fit together.

use crate::random::Random;
use job::{Column, Envelope, Values};

/// The kind of a column.
#[derive(Debug, Clone, Copy, PartialEq, Eq)]
pub enum Kind {
    Text,
    Int(u8),
    Decimal(u8),
    Date,
    Time,
}

impl Kind {
    pub fn of(values: &Values) -> Kind {
        match values {
            Values::Binary(..) => Kind::Text,
            Values::Int64(_, scale) => Kind::Int(*scale),
            Values::Decimal128(_, scale) => Kind::Decimal(*scale),
            Values::Date32(_) => Kind::Date,
            Values::Time32(_) => Kind::Time,
        }
    }

    pub fn any(random: &mut Random) -> Kind {
        match random.below(10) {
            0..=3 => Kind::Text,
            4 => Kind::Int(*random.pick(&[0, 0, 2, 38])),
            5 | 6 => Kind::Decimal(*random.pick(&[0, 2, 2, 5, 38])),
            7 | 8 => Kind::Date,
            _ => Kind::Time,
        }
    }
}

/// How data is meant.
#[derive(Debug, Clone, Copy, PartialEq, Eq)]
pub enum Mood {
    Plausible,
    Hostile,
}

const WORDS: [&str; 12] = [
    "DOE",
    "JANE",
    "99213",
    "85025",
    "PCN0001",
    "ICN42",
    "CITY HOSPITAL",
    "A",
    "45",
    "CO",
    "PR",
    "W100200300",
];

/// Bytes that separators are often made of, and others that may be.
const STRANGE: &[u8] = b"*:~^|>\n\t\r\0!{\x1c\x1d\x7f\x80\xa0\xff ";

/// Text: a word; hostile: empty, long, with separators or any bytes.
pub fn text(random: &mut Random, envelope: &Envelope, mood: Mood) -> Vec<u8> {
    let word = random.pick(&WORDS).as_bytes().to_vec();
    if mood == Mood::Plausible {
        return word;
    }
    match random.below(10) {
        0 | 1 => Vec::new(),
        2..=4 => {
            let mut bytes = word;
            for _ in 0..=random.below(2) {
                let at = random.index(bytes.len() + 1);
                let byte = if random.chance(80) {
                    *random.pick(&envelope.separators())
                } else {
                    *random.pick(STRANGE)
                };
                bytes.insert(at, byte);
            }
            bytes
        }
        5 => (0..random.below(6)).map(|_| random.bits() as u8).collect(),
        6 => {
            let most = if random.chance(10) { 300 } else { 20 };
            vec![b'X'; random.index(most)]
        }
        7 => b" ".repeat(random.index(3)),
        _ => word,
    }
}

/// Text in ASCII, for envelope strings and codes.
pub fn ascii(random: &mut Random, envelope: &Envelope, mood: Mood) -> Vec<u8> {
    let mut bytes = text(random, envelope, mood);
    bytes.retain(u8::is_ascii);
    if mood == Mood::Hostile && random.chance(30) {
        bytes.extend_from_slice(
            [&b"  "[..], b"\t", b"\x0b\x0c\r\n", b"\x1c", b"\x1f ", b"\x08"][random.index(6)],
        );
    }
    bytes
}

pub fn days(random: &mut Random, mood: Mood) -> i32 {
    if mood == Mood::Plausible {
        return random.between(18_000, 21_000) as i32;
    }
    match random.below(6) {
        0 => *random.pick(&[
            i32::MIN,
            i32::MAX,
            i32::MAX - 719_467,
            i32::MAX - 719_468,
            -719_163,
            -719_162,
            -719_468,
            -719_469,
            2_932_896,
            2_932_897,
            -7_306,
            -7_305,
            29_219,
            29_220,
            0,
            -1,
        ]),
        1 => random.between(-7_400, -7_200) as i32,
        2 => random.between(29_100, 29_300) as i32,
        3 => random.between(-900_000, 3_100_000) as i32,
        4 => random.bits() as i32,
        _ => random.between(-200_000, 100_000) as i32,
    }
}

pub fn seconds(random: &mut Random, mood: Mood) -> i32 {
    if mood == Mood::Plausible {
        return random.between(0, 1_439) as i32 * 60;
    }
    match random.below(4) {
        0 => *random.pick(&[i32::MIN, -1, 0, 1, 59, 60, 3_661, 86_399, 86_400, 86_340, i32::MAX]),
        1 => random.bits() as i32,
        2 => random.between(0, 1_439) as i32 * 60,
        _ => random.between(0, 86_399) as i32,
    }
}

fn integer(random: &mut Random, mood: Mood) -> i64 {
    if mood == Mood::Plausible {
        return random.between(0, 9_999);
    }
    match random.below(3) {
        0 => *random.pick(&[i64::MIN, i64::MIN + 1, -1, 0, 1, 9, 10, i64::MAX]),
        1 => random.bits() as i64,
        _ => random.between(-1_000, 1_000),
    }
}

fn decimal(random: &mut Random, mood: Mood) -> i128 {
    if mood == Mood::Plausible {
        return i128::from(random.between(0, 500_000));
    }
    let power = 10i128.pow(random.number(39));
    match random.below(6) {
        0 => *random.pick(&[i128::MIN, i128::MIN + 1, -1, 0, 1, 5, -150, 1_200, i128::MAX]),
        1 => i128::from(random.bits() as i64) << random.below(65),
        2 => (u128::from(random.bits()) << 64 | u128::from(random.bits())) as i128,
        3 => power,
        4 => -power * i128::from(random.between(0, 1)) + i128::from(random.between(-5, 5)),
        _ => i128::from(random.between(-100_000, 100_000)),
    }
}

/// A column of so many rows, some of them null.
pub fn column(random: &mut Random, envelope: &Envelope, kind: Kind, rows: usize, mood: Mood) -> Column {
    let nulls = *random.pick(&[0, 10, 30, 90]);
    // Few different values, so that neighbours are often alike.
    let few = random.chance(30);
    macro_rules! cells {
        ($make:expr) => {{
            let first = $make;
            let mut cells = Vec::with_capacity(rows);
            for _ in 0..rows {
                let value = if few && random.chance(70) { first.clone() } else { $make };
                cells.push((!random.chance(nulls)).then_some(value));
            }
            cells
        }};
    }
    match kind {
        Kind::Text => Column::binary(&cells!(text(random, envelope, mood))),
        Kind::Int(scale) => Column::int64(&cells!(integer(random, mood)), scale),
        Kind::Decimal(scale) => Column::decimal(&cells!(decimal(random, mood)), scale),
        Kind::Date => Column::date(&cells!(days(random, mood))),
        Kind::Time => Column::time(&cells!(seconds(random, mood))),
    }
}

/// Makes some cells of a column have no answer, or values behind a null.
pub fn bend(random: &mut Random, column: &mut Column) {
    match random.below(7) {
        0 => column.validity.len = column.validity.len.saturating_sub(random.number(3)),
        1 => column.validity.len += random.number(20),
        2 => column.validity.bytes.truncate(random.index(column.validity.bytes.len() + 1)),
        3 => {
            let byte = random.bits() as u8;
            column.validity.bytes.push(byte);
        }
        4 => {
            if let Some(byte) = column.validity.bytes.last_mut() {
                *byte = random.bits() as u8;
            }
        }
        5 => match &mut column.values {
            Values::Binary(offsets, _) => offsets.truncate(random.index(offsets.len() + 1)),
            Values::Int64(values, _) => values.truncate(random.index(values.len() + 1)),
            Values::Decimal128(values, _) => values.truncate(random.index(values.len() + 1)),
            Values::Date32(values) | Values::Time32(values) => {
                values.truncate(random.index(values.len() + 1))
            }
        },
        _ => match &mut column.values {
            Values::Binary(offsets, data) => {
                if !offsets.is_empty() {
                    let at = random.index(offsets.len());
                    let length = data.len() as i64;
                    offsets[at] = match random.below(6) {
                        0 => -1,
                        1 => i32::MIN,
                        2 => i32::MAX,
                        3 => length as i32 + 1,
                        _ => random.between(0, length) as i32,
                    };
                }
                if random.chance(20) {
                    data.truncate(random.index(data.len() + 1));
                }
            }
            Values::Int64(values, _) => values.push(7),
            Values::Decimal128(values, _) => values.push(7),
            Values::Date32(values) | Values::Time32(values) => values.push(7),
        },
    }
}
