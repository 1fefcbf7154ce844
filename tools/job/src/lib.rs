//! Jobs of the 835 writer, written from the rules and the job's field-by-field layout (docs/RULES.md, "A job").
//!
//! - this file: a job as a tree of records and lists;
//! - [`codec`]: the byte string, with refusals 1 and 2;
//! - [`check`]: refusals 3 to 5, and all five together;
//! - [`complete`]: what makes a plan complete;
//! - [`cell`], [`hanging`], [`fields`], [`due`]: cells and their texts, which row hangs on which, envelope texts, and of
//!   these the segments that are due;
//! - [`grammar`]: the reading of a document;
//! - [`text`]: a short text form that a person can write and read.

pub mod calendar;
pub mod cell;
pub mod check;
pub mod codec;
pub mod complete;
pub mod due;
pub mod fields;
pub mod grammar;
pub mod hanging;
pub mod text;

pub use check::{Refusal, check, judge};
pub use codec::{decode, encode, seal, sections};
pub use text::{parse, print};

/// A map as the byte string holds it: pairs, whose keys rise in a job that is read.
#[derive(Debug, Clone, PartialEq, Eq)]
pub struct Map<K, V>(pub Vec<(K, V)>);

impl<K, V> Default for Map<K, V> {
    fn default() -> Self {
        Map(Vec::new())
    }
}

impl<K: PartialEq, V> Map<K, V> {
    /// The value at a key.
    pub fn get(&self, key: &K) -> Option<&V> {
        self.0.iter().find(|(at, _)| at == key).map(|(_, value)| value)
    }
}

/// A whole job.
#[derive(Debug, Clone, Default, PartialEq, Eq)]
pub struct Job {
    pub spec: Spec,
    pub plan: Vec<LoopPlan>,
    pub layout: Layout,
    pub envelope: Envelope,
    pub data: Vec<TableData>,
}

/// Section 1: loops, roots, segment definitions, tables, version.
#[derive(Debug, Clone, Default, PartialEq, Eq)]
pub struct Spec {
    pub loops: Vec<Loop>,
    pub roots: Vec<u32>,
    pub segments: Map<Vec<u8>, SegmentDef>,
    pub tables: Vec<Table>,
    pub version: Option<Version>,
}

#[derive(Debug, Clone, Default, PartialEq, Eq)]
pub struct Loop {
    pub parent: Option<u32>,
    pub trigger: Vec<u8>,
    /// The segment of each occurrence.
    pub occurrences: Vec<Vec<u8>>,
    pub usage: Usage,
    pub end: Option<Vec<u8>>,
    pub control: Option<Control>,
    pub children: Vec<u32>,
}

#[derive(Debug, Clone, Copy, Default, PartialEq, Eq)]
pub enum Usage {
    Required,
    #[default]
    Situational,
}

#[derive(Debug, Clone, Copy, PartialEq, Eq)]
pub struct Control {
    pub opener: u32,
    pub closer: u32,
    pub count_element: u32,
    pub count: Count,
}

#[derive(Debug, Clone, Copy, PartialEq, Eq)]
pub enum Count {
    Segments,
    Children,
}

#[derive(Debug, Clone, Default, PartialEq, Eq)]
pub struct SegmentDef {
    pub elements: Map<u32, ElementDef>,
}

#[derive(Debug, Clone, Default, PartialEq, Eq)]
pub struct ElementDef {
    pub kind: Kind,
    pub min: Option<u32>,
    pub max: Option<u32>,
    pub components: Map<u32, ComponentDef>,
    pub codes: Vec<Vec<u8>>,
}

#[derive(Debug, Clone, Default, PartialEq, Eq)]
pub struct ComponentDef {
    pub kind: Kind,
    pub min: Option<u32>,
    pub max: Option<u32>,
    pub codes: Vec<Vec<u8>>,
}

/// The data type of an element, as X12 names it.
#[derive(Debug, Clone, Copy, Default, PartialEq, Eq)]
pub enum Kind {
    #[default]
    An,
    Id,
    N(u8),
    R(u8),
    Dt,
    Tm,
}

#[derive(Debug, Clone, Default, PartialEq, Eq)]
pub struct Table {
    pub loops: Vec<u32>,
    /// Whether the table is anchored on a segment: a repeat table.
    pub segment: bool,
    pub repeat: Option<Repeat>,
    /// The number of declared columns.
    pub columns: u32,
    pub parent: Option<u32>,
    pub ancestors: Vec<u32>,
}

#[derive(Debug, Clone, Copy, PartialEq, Eq)]
pub struct Repeat {
    pub from: u32,
    pub step: u32,
}

#[derive(Debug, Clone, PartialEq, Eq)]
pub struct Version {
    pub segment: Vec<u8>,
    pub element: u32,
    pub value: Vec<u8>,
}

/// Section 2 is a list of these, one a loop.
#[derive(Debug, Clone, Default, PartialEq, Eq)]
pub struct LoopPlan {
    pub instances: Instances,
    pub segments: Vec<SegmentPlan>,
}

/// Where a loop's instances come from; the number is a table's.
#[derive(Debug, Clone, Copy, Default, PartialEq, Eq)]
pub enum Instances {
    #[default]
    Absent,
    Envelope,
    Rows(u32),
    Inside(u32),
    Groups(u32),
    Implied,
}

#[derive(Debug, Clone, PartialEq, Eq)]
pub struct SegmentPlan {
    pub occurrence: u32,
    pub source: Source,
    pub elements: Vec<ElementPlan>,
}

/// Where a planned segment's values come from; the number is a table's.
#[derive(Debug, Clone, Copy, PartialEq, Eq)]
pub enum Source {
    Envelope,
    Row(u32),
    Repeat(u32),
}

#[derive(Debug, Clone, PartialEq, Eq)]
pub struct ElementPlan {
    pub element: u32,
    pub component: Option<u32>,
    pub value: Value,
}

#[derive(Debug, Clone, PartialEq, Eq)]
pub enum Value {
    Column(u32),
    Group(u32),
    Code(Vec<u8>),
}

/// Section 3: five lists, four by loop and the last by table.
#[derive(Debug, Clone, Default, PartialEq, Eq)]
pub struct Layout {
    pub order: Vec<Vec<Item>>,
    pub forced: Vec<Vec<bool>>,
    pub group_columns: Vec<Vec<u32>>,
    pub depth: Vec<Option<u32>>,
    pub capacity: Vec<u32>,
}

/// What an instance writes: one of its loop's planned segments, or a child loop.
#[derive(Debug, Clone, Copy, PartialEq, Eq)]
pub enum Item {
    Segment(u32),
    Loop(u32),
}

/// Section 4.
#[derive(Debug, Clone, PartialEq, Eq)]
pub struct Envelope {
    pub sender_qualifier: Vec<u8>,
    pub sender_id: Vec<u8>,
    pub receiver_qualifier: Vec<u8>,
    pub receiver_id: Vec<u8>,
    pub application_sender: Option<Vec<u8>>,
    pub application_receiver: Option<Vec<u8>>,
    /// Days since 1970-01-01.
    pub date: i32,
    /// Seconds since midnight.
    pub time: i32,
    pub usage_indicator: Vec<u8>,
    pub control_number: u64,
    pub element: u8,
    pub component: u8,
    pub segment: u8,
    pub repetition: Option<u8>,
    pub line_break: bool,
}

impl Default for Envelope {
    fn default() -> Self {
        Envelope {
            sender_qualifier: b"ZZ".to_vec(),
            sender_id: b"SENDER".to_vec(),
            receiver_qualifier: b"ZZ".to_vec(),
            receiver_id: b"RECEIVER".to_vec(),
            application_sender: None,
            application_receiver: None,
            date: 0,
            time: 0,
            usage_indicator: b"P".to_vec(),
            control_number: 1,
            element: b'*',
            component: b':',
            segment: b'~',
            repetition: None,
            line_break: false,
        }
    }
}

impl Envelope {
    /// Element, component, segment, then repetition if present.
    pub fn separators(&self) -> Vec<u8> {
        let mut all = vec![self.element, self.component, self.segment];
        all.extend(self.repetition);
        all
    }
}

/// Section 5 is a list of these, one a table.
#[derive(Debug, Clone, Default, PartialEq, Eq)]
pub struct TableData {
    pub rows: u32,
    /// The column of keys.
    pub row: Option<Column>,
    pub segment: Option<Column>,
    /// By the table referred to.
    pub refs: Vec<(u32, Option<Column>)>,
    pub columns: Vec<Option<Column>>,
}

impl TableData {
    /// Every column that is there: keys, segment, references, declared ones.
    pub fn all_columns(&self) -> impl Iterator<Item = &Column> {
        let refs = self.refs.iter().filter_map(|(_, column)| column.as_ref());
        self.row.iter().chain(&self.segment).chain(refs).chain(self.columns.iter().flatten())
    }
}

#[derive(Debug, Clone, PartialEq, Eq)]
pub struct Column {
    pub values: Values,
    pub validity: Validity,
}

#[derive(Debug, Clone, PartialEq, Eq)]
pub enum Values {
    /// Offsets, and the bytes they cut.
    Binary(Vec<i32>, Vec<u8>),
    /// Values and scale.
    Int64(Vec<i64>, u8),
    /// Values and scale.
    Decimal128(Vec<i128>, u8),
    Date32(Vec<i32>),
    Time32(Vec<i32>),
}

impl Values {
    pub fn scale(&self) -> u8 {
        match self {
            Values::Int64(_, scale) | Values::Decimal128(_, scale) => *scale,
            _ => 0,
        }
    }
}

/// A bit a row, least significant first, and how many there are.
#[derive(Debug, Clone, Default, PartialEq, Eq)]
pub struct Validity {
    pub bytes: Vec<u8>,
    pub len: u32,
}

impl Validity {
    /// The validity of a list of answers.
    pub fn of(bits: impl IntoIterator<Item = bool>) -> Validity {
        let mut validity = Validity::default();
        for bit in bits {
            if validity.len % 8 == 0 {
                validity.bytes.push(0);
            }
            if bit && let Some(last) = validity.bytes.last_mut() {
                *last |= 1 << (validity.len % 8);
            }
            validity.len += 1;
        }
        validity
    }

    /// The bit of a row; none where it is missing.
    pub fn bit(&self, row: usize) -> Option<bool> {
        if row >= self.len as usize {
            return None;
        }
        self.bytes.get(row / 8).map(|byte| byte >> (row % 8) & 1 == 1)
    }
}

impl Column {
    /// A column of byte strings.
    pub fn binary<T: AsRef<[u8]>>(cells: &[Option<T>]) -> Column {
        let mut offsets = vec![0];
        let mut data = Vec::new();
        for cell in cells {
            if let Some(bytes) = cell {
                data.extend_from_slice(bytes.as_ref());
            }
            offsets.push(data.len() as i32);
        }
        Column {
            values: Values::Binary(offsets, data),
            validity: Validity::of(cells.iter().map(Option::is_some)),
        }
    }

    /// A column of integers.
    pub fn int64(cells: &[Option<i64>], scale: u8) -> Column {
        let values = cells.iter().map(|cell| cell.unwrap_or(0)).collect();
        Column {
            values: Values::Int64(values, scale),
            validity: Validity::of(cells.iter().map(Option::is_some)),
        }
    }

    /// A column of decimals, each scaled by ten to the `scale`.
    pub fn decimal(cells: &[Option<i128>], scale: u8) -> Column {
        let values = cells.iter().map(|cell| cell.unwrap_or(0)).collect();
        Column {
            values: Values::Decimal128(values, scale),
            validity: Validity::of(cells.iter().map(Option::is_some)),
        }
    }

    /// A column of days since 1970-01-01.
    pub fn date(cells: &[Option<i32>]) -> Column {
        Column {
            values: Values::Date32(cells.iter().map(|cell| cell.unwrap_or(0)).collect()),
            validity: Validity::of(cells.iter().map(Option::is_some)),
        }
    }

    /// A column of seconds since midnight.
    pub fn time(cells: &[Option<i32>]) -> Column {
        Column {
            values: Values::Time32(cells.iter().map(|cell| cell.unwrap_or(0)).collect()),
            validity: Validity::of(cells.iter().map(Option::is_some)),
        }
    }
}
