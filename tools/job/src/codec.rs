//! The byte string of a job: little-endian, five sections and a trailer that points back.

use crate::*;

/// The length of the trailer.
pub const TRAILER: usize = 24;
/// The longest job.
pub const LONGEST: usize = 65_536;

/// The bytes of a section that are still to be read.
pub struct Reader<'a> {
    rest: &'a [u8],
}

impl Reader<'_> {
    fn take<const N: usize>(&mut self) -> Option<[u8; N]> {
        let (head, rest) = self.rest.split_first_chunk::<N>()?;
        self.rest = rest;
        Some(*head)
    }
}

/// A form of the byte string: how a value is written, and read back; none where that fails.
pub trait Form: Sized {
    fn put(&self, out: &mut Vec<u8>);
    fn get(from: &mut Reader<'_>) -> Option<Self>;
}

macro_rules! numbers {
    ($($number:ty),*) => {$(
        impl Form for $number {
            fn put(&self, out: &mut Vec<u8>) {
                out.extend_from_slice(&self.to_le_bytes());
            }
            fn get(from: &mut Reader<'_>) -> Option<Self> {
                from.take().map(<$number>::from_le_bytes)
            }
        }
    )*};
}
numbers!(u8, u32, i32, i64, u64, i128);

impl Form for bool {
    fn put(&self, out: &mut Vec<u8>) {
        out.push(u8::from(*self));
    }
    fn get(from: &mut Reader<'_>) -> Option<Self> {
        match u8::get(from)? {
            0 => Some(false),
            1 => Some(true),
            _ => None,
        }
    }
}

impl<T: Form> Form for Option<T> {
    fn put(&self, out: &mut Vec<u8>) {
        self.is_some().put(out);
        if let Some(value) = self {
            value.put(out);
        }
    }
    fn get(from: &mut Reader<'_>) -> Option<Self> {
        match bool::get(from)? {
            false => Some(None),
            true => T::get(from).map(Some),
        }
    }
}

/// Lists, and byte strings, which are lists of bytes.
impl<T: Form> Form for Vec<T> {
    fn put(&self, out: &mut Vec<u8>) {
        (self.len() as u32).put(out);
        for item in self {
            item.put(out);
        }
    }
    fn get(from: &mut Reader<'_>) -> Option<Self> {
        let count = u32::get(from)?;
        let mut items = Vec::new();
        for _ in 0..count {
            items.push(T::get(from)?);
        }
        Some(items)
    }
}

impl<A: Form, B: Form> Form for (A, B) {
    fn put(&self, out: &mut Vec<u8>) {
        self.0.put(out);
        self.1.put(out);
    }
    fn get(from: &mut Reader<'_>) -> Option<Self> {
        Some((A::get(from)?, B::get(from)?))
    }
}

impl<K: Form + Ord, V: Form> Form for Map<K, V> {
    fn put(&self, out: &mut Vec<u8>) {
        self.0.put(out);
    }
    fn get(from: &mut Reader<'_>) -> Option<Self> {
        let pairs = Vec::<(K, V)>::get(from)?;
        pairs.is_sorted_by(|a, b| a.0 < b.0).then_some(Map(pairs))
    }
}

/// A structure: its fields in order.
macro_rules! record {
    ($name:ident: $($field:ident),*) => {
        impl Form for $name {
            fn put(&self, out: &mut Vec<u8>) {
                $(self.$field.put(out);)*
            }
            fn get(from: &mut Reader<'_>) -> Option<Self> {
                $(let $field = Form::get(from)?;)*
                Some($name { $($field),* })
            }
        }
    };
}

/// An enum: a byte for the case, then its fields.
macro_rules! cases {
    ($name:ident: $($number:literal $case:ident $(($($field:ident),*))?),*) => {
        impl Form for $name {
            fn put(&self, out: &mut Vec<u8>) {
                match self {
                    $($name::$case $(($($field),*))? => {
                        out.push($number);
                        $($($field.put(out);)*)?
                    })*
                }
            }
            fn get(from: &mut Reader<'_>) -> Option<Self> {
                match u8::get(from)? {
                    $($number => {
                        $($(let $field = Form::get(from)?;)*)?
                        Some($name::$case $(($($field),*))?)
                    })*
                    _ => None,
                }
            }
        }
    };
}

record!(Spec: loops, roots, segments, tables, version);
record!(Loop: parent, trigger, occurrences, usage, end, control, children);
cases!(Usage: 0 Required, 1 Situational);
record!(Control: opener, closer, count_element, count);
cases!(Count: 0 Segments, 1 Children);
record!(SegmentDef: elements);
record!(ElementDef: kind, min, max, components, codes);
record!(ComponentDef: kind, min, max, codes);
cases!(Kind: 0 An, 1 Id, 2 N(places), 3 R(places), 4 Dt, 5 Tm);
record!(Table: loops, segment, repeat, columns, parent, ancestors);
record!(Repeat: from, step);
record!(Version: segment, element, value);

record!(LoopPlan: instances, segments);
cases!(Instances: 0 Absent, 1 Envelope, 2 Rows(table), 3 Inside(table), 4 Groups(table), 5 Implied);
record!(SegmentPlan: occurrence, source, elements);
cases!(Source: 0 Envelope, 1 Row(table), 2 Repeat(table));
record!(ElementPlan: element, component, value);
cases!(Value: 0 Column(column), 1 Group(column), 2 Code(bytes));

record!(Layout: order, forced, group_columns, depth, capacity);
cases!(Item: 0 Segment(at), 1 Loop(number));

record!(Envelope: sender_qualifier, sender_id, receiver_qualifier, receiver_id,
    application_sender, application_receiver, date, time, usage_indicator, control_number,
    element, component, segment, repetition, line_break);

record!(TableData: rows, row, segment, refs, columns);
record!(Column: values, validity);
cases!(Values: 0 Binary(offsets, data), 1 Int64(values, scale), 2 Decimal128(values, scale),
    3 Date32(values), 4 Time32(values));
record!(Validity: bytes, len);

/// The five sections of a job.
pub fn sections(job: &Job) -> [Vec<u8>; 5] {
    let mut sections = [const { Vec::new() }; 5];
    job.spec.put(&mut sections[0]);
    job.plan.put(&mut sections[1]);
    job.layout.put(&mut sections[2]);
    job.envelope.put(&mut sections[3]);
    job.data.put(&mut sections[4]);
    sections
}

/// Five sections behind each other, with their trailer.
pub fn seal(sections: &[Vec<u8>; 5]) -> Vec<u8> {
    let mut bytes = Vec::new();
    let mut trailer = Vec::new();
    for section in sections {
        (bytes.len() as u32).put(&mut trailer);
        bytes.extend_from_slice(section);
    }
    ((bytes.len() + TRAILER) as u32).put(&mut trailer);
    bytes.extend_from_slice(&trailer);
    bytes
}

/// A job as a byte string.
pub fn encode(job: &Job) -> Vec<u8> {
    seal(&sections(job))
}

/// The sections a trailer cuts; none where the length is out of bounds or the trailer broken.
fn cut(bytes: &[u8]) -> Option<[&[u8]; 5]> {
    if bytes.len() < TRAILER || bytes.len() > LONGEST {
        return None;
    }
    let (body, trailer) = bytes.split_at(bytes.len() - TRAILER);
    let mut from = Reader { rest: trailer };
    let mut starts = [0; 6];
    for start in &mut starts[..5] {
        *start = u32::get(&mut from)? as usize;
    }
    let length = u32::get(&mut from)? as usize;
    starts[5] = body.len();
    if starts[0] != 0 || length != bytes.len() {
        return None;
    }
    let mut sections = [&body[..0]; 5];
    for (at, section) in sections.iter_mut().enumerate() {
        *section = body.get(starts[at]..starts[at + 1])?;
    }
    Some(sections)
}

/// A section used up exactly.
fn whole<T: Form>(bytes: &[u8]) -> Option<T> {
    let mut from = Reader { rest: bytes };
    let value = T::get(&mut from)?;
    from.rest.is_empty().then_some(value)
}

/// The job a byte string holds, or refusal 1 or 2.
pub fn decode(bytes: &[u8]) -> Result<Job, Refusal> {
    let [spec, plan, layout, envelope, data] = cut(bytes).ok_or(Refusal::Trailer)?;
    let read = || {
        Some(Job {
            spec: whole(spec)?,
            plan: whole(plan)?,
            layout: whole(layout)?,
            envelope: whole(envelope)?,
            data: whole(data)?,
        })
    };
    read().ok_or(Refusal::Format)
}
