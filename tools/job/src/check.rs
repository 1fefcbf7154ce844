//! Refusals 1 to 5 (docs/RULES.md, "Answers"): the lowest number that applies, each judged over the
//! whole job.

use crate::*;

/// Why a byte string is no job.
#[derive(Debug, Clone, Copy, PartialEq, Eq, PartialOrd, Ord)]
pub enum Refusal {
    /// 1: too short, too long, or the trailer is broken.
    Trailer = 1,
    /// 2: a value passes its section's end, bytes are left over, a mark or case is unknown, map
    /// keys don't rise.
    Format = 2,
    /// 3: a limit is passed.
    Limit = 3,
    /// 4: loop numbers, parents, children, roots or orders don't fit together.
    Loops = 4,
    /// 5: separators, identifiers, scales or texts.
    Texts = 5,
}

impl Refusal {
    pub fn number(self) -> u8 {
        self as u8
    }
}

/// Reads and judges a byte string.
pub fn check(bytes: &[u8]) -> Result<Job, Refusal> {
    let job = codec::decode(bytes)?;
    judge(&job).map_or(Ok(job), Err)
}

/// Refusals 3 to 5 of a job that was read.
pub fn judge(job: &Job) -> Option<Refusal> {
    if passes_limit(job) {
        return Some(Refusal::Limit);
    }
    if !loops_agree(job) {
        return Some(Refusal::Loops);
    }
    if !texts_allowed(job) {
        return Some(Refusal::Texts);
    }
    None
}

pub const LOOPS: usize = 32;
pub const TABLES: usize = 16;
pub const ROWS: u64 = 4_096;
pub const COLUMNS: usize = 32;
/// Occurrences a loop, and planned segments a loop.
pub const SEGMENTS: usize = 32;
/// Element, component, step, capacity and min.
pub const SMALL: u32 = 255;
pub const SCALE: u8 = 38;

/// The numbers that may be 255 at most.
fn small_numbers(job: &Job) -> Vec<u32> {
    let mut all = Vec::new();
    for def in &job.spec.loops {
        if let Some(rule) = def.control {
            all.extend([rule.opener, rule.closer, rule.count_element]);
        }
    }
    for (_, segment) in &job.spec.segments.0 {
        for (position, element) in &segment.elements.0 {
            all.push(*position);
            all.extend(element.min);
            for (position, component) in &element.components.0 {
                all.push(*position);
                all.extend(component.min);
            }
        }
    }
    all.extend(job.spec.tables.iter().filter_map(|table| table.repeat).map(|repeat| repeat.step));
    all.extend(job.spec.version.iter().map(|version| version.element));
    for segment in job.plan.iter().flat_map(|plan| &plan.segments) {
        for element in &segment.elements {
            all.push(element.element);
            all.extend(element.component);
        }
    }
    all.extend(&job.layout.capacity);
    all
}

/// Refusal 3.
fn passes_limit(job: &Job) -> bool {
    let spec = &job.spec;
    spec.loops.len() > LOOPS
        || spec.tables.len() > TABLES
        || job.data.len() > TABLES
        || job.data.iter().map(|table| u64::from(table.rows)).sum::<u64>() > ROWS
        || spec.tables.iter().any(|table| table.columns as usize > COLUMNS)
        || job.data.iter().any(|table| table.columns.len() > COLUMNS)
        || spec.loops.iter().any(|def| def.occurrences.len() > SEGMENTS)
        || job.plan.iter().any(|plan| plan.segments.len() > SEGMENTS)
        || small_numbers(job).into_iter().any(|number| number > SMALL)
}

/// No number stands twice.
fn distinct(numbers: &[u32]) -> bool {
    numbers.iter().enumerate().all(|(at, number)| !numbers[..at].contains(number))
}

/// Refusal 4 does not apply.
fn loops_agree(job: &Job) -> bool {
    in_range(job) && family_agrees(&job.spec) && roots_agree(&job.spec) && orders_agree(job)
}

/// Every loop number is one of a loop.
fn in_range(job: &Job) -> bool {
    let spec = &job.spec;
    let loops = spec.loops.iter().flat_map(|def| def.parent.iter().chain(&def.children));
    let tables = spec.tables.iter().flat_map(|table| &table.loops);
    let orders = job.layout.order.iter().flatten().filter_map(|item| match item {
        Item::Loop(number) => Some(number),
        Item::Segment(_) => None,
    });
    let mut all = loops.chain(&spec.roots).chain(tables).chain(orders);
    all.all(|&number| (number as usize) < spec.loops.len())
}

/// Parents and children agree, no child is listed twice, and no parents form a ring.
fn family_agrees(spec: &Spec) -> bool {
    let parent = |number: u32| spec.loops[number as usize].parent;
    (0..spec.loops.len() as u32).all(|number| {
        let children = &spec.loops[number as usize].children;
        let mut above = Some(number);
        for _ in 0..spec.loops.len() {
            above = above.and_then(parent);
        }
        distinct(children)
            && children.iter().all(|&child| parent(child) == Some(number))
            && parent(number).is_none_or(|at| spec.loops[at as usize].children.contains(&number))
            && above.is_none()
    })
}

/// The roots are the loops without parent, each once.
fn roots_agree(spec: &Spec) -> bool {
    let without = spec.loops.iter().filter(|def| def.parent.is_none()).count();
    distinct(&spec.roots)
        && spec.roots.iter().all(|&root| spec.loops[root as usize].parent.is_none())
        && spec.roots.len() == without
}

/// An order names only children of its loop, each at most once.
fn orders_agree(job: &Job) -> bool {
    job.layout.order.iter().enumerate().all(|(at, order)| {
        let named: Vec<u32> = order
            .iter()
            .filter_map(|item| match item {
                Item::Loop(number) => Some(*number),
                Item::Segment(_) => None,
            })
            .collect();
        let children = job.spec.loops.get(at).map_or(&[][..], |def| &def.children);
        distinct(&named) && named.iter().all(|number| children.contains(number))
    })
}

/// A segment identifier: 2 or 3 bytes of A to Z, 0 to 9.
pub fn is_identifier(bytes: &[u8]) -> bool {
    matches!(bytes.len(), 2 | 3)
        && bytes.iter().all(|byte| byte.is_ascii_uppercase() || byte.is_ascii_digit())
}

/// A byte that may separate: no ASCII letter or digit, no space, minus or point.
pub fn may_separate(byte: u8) -> bool {
    !byte.is_ascii_alphanumeric() && !b" -.".contains(&byte)
}

/// Refusal 5 does not apply.
fn texts_allowed(job: &Job) -> bool {
    separators_allowed(&job.envelope)
        && identifiers(&job.spec).into_iter().all(is_identifier)
        && job.data.iter().flat_map(TableData::all_columns).all(|column| column.values.scale() <= SCALE)
        && envelope_texts(&job.envelope).into_iter().all(|text| text.is_ascii())
        && spec_texts(&job.spec).into_iter().all(|text| text.is_ascii())
}

fn separators_allowed(envelope: &Envelope) -> bool {
    let all = envelope.separators();
    let apart = all.iter().enumerate().all(|(at, byte)| !all[..at].contains(byte));
    apart && all.into_iter().all(may_separate)
}

/// Triggers, occurrence segments, ends, the keys of the segment map, the version's segment.
fn identifiers(spec: &Spec) -> Vec<&[u8]> {
    let mut all: Vec<&[u8]> = Vec::new();
    for def in &spec.loops {
        all.push(&def.trigger);
        all.extend(def.occurrences.iter().map(Vec::as_slice));
        all.extend(def.end.as_deref());
    }
    all.extend(spec.segments.0.iter().map(|(id, _)| id.as_slice()));
    all.extend(spec.version.iter().map(|version| version.segment.as_slice()));
    all
}

fn envelope_texts(envelope: &Envelope) -> Vec<&[u8]> {
    let mut all = vec![
        envelope.sender_qualifier.as_slice(),
        &envelope.sender_id,
        &envelope.receiver_qualifier,
        &envelope.receiver_id,
        &envelope.usage_indicator,
    ];
    all.extend(envelope.application_sender.as_deref());
    all.extend(envelope.application_receiver.as_deref());
    all
}

/// The spec's codes and the version's first value.
pub(crate) fn spec_texts(spec: &Spec) -> Vec<&[u8]> {
    let mut all: Vec<&[u8]> = Vec::new();
    for (_, element) in spec.segments.0.iter().flat_map(|(_, segment)| &segment.elements.0) {
        all.extend(element.codes.iter().map(Vec::as_slice));
        for (_, component) in &element.components.0 {
            all.extend(component.codes.iter().map(Vec::as_slice));
        }
    }
    all.extend(spec.version.iter().map(|version| version.value.as_slice()));
    all
}
