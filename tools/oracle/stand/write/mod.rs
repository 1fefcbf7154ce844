//! Stands in for the top-level write: runs `nest` and `Emitter::run` on a job with the settings of the
//! port (every loop's counter starts at the envelope's control number; the separators are tried as element, component,
//! segment, then repetition; the walk's findings follow nest's), and hands back what they gave.

mod cells;
mod data;
mod emit;
mod envelope;
mod finding;
mod layout;
mod nest;
mod plan;
mod refusal;
mod render;
mod trace;
mod walk;

use crate::column::ColumnData;
use crate::delimiters::Delimiters;
use crate::spec::{LoopId, Spec};
use data::Data;
use emit::Emitter;
use envelope::{COMPONENT, ELEMENT, Envelope, Field, REPETITION, SEGMENT};
use finding::{Finding, Origin};
use layout::{Item, Layout};
use plan::{ElementPlan, Instances, LoopPlan, SegmentPlan, SegmentSource, ValueSource, WritePlan};
use record::{Kind, Raw, Written};
use render::Separators;
use trace::Traces;

fn number(value: u32) -> usize {
    value as usize
}

fn numbers(values: &[u32]) -> Vec<usize> {
    values.iter().map(|&value| number(value)).collect()
}

fn text(bytes: &[u8]) -> String {
    String::from_utf8_lossy(bytes).into_owned()
}

fn instances(instances: job::Instances) -> Instances {
    match instances {
        job::Instances::Absent => Instances::Absent,
        job::Instances::Envelope => Instances::Envelope,
        job::Instances::Rows(table) => Instances::Rows { table: number(table) },
        job::Instances::Inside(table) => Instances::Inside { table: number(table) },
        job::Instances::Groups(table) => Instances::Groups { table: number(table) },
        job::Instances::Implied => Instances::Implied,
    }
}

fn element(plan: &job::ElementPlan) -> ElementPlan {
    ElementPlan {
        element: number(plan.element),
        component: plan.component.map(number),
        value: match &plan.value {
            job::Value::Column(column) => ValueSource::Column { column: number(*column) },
            job::Value::Group(column) => ValueSource::Group { column: number(*column), offset: 0 },
            job::Value::Code(code) => ValueSource::Code(code.clone()),
        },
    }
}

fn segment(plan: &job::SegmentPlan) -> SegmentPlan {
    SegmentPlan {
        occurrence: number(plan.occurrence),
        source: match plan.source {
            job::Source::Envelope => SegmentSource::Envelope,
            job::Source::Row(table) => SegmentSource::Row { table: number(table), nth: 1 },
            job::Source::Repeat(table) => SegmentSource::Repeat { table: number(table) },
        },
        elements: plan.elements.iter().map(element).collect(),
    }
}

fn plan_of(job: &job::Job) -> WritePlan {
    let plan = |plan: &job::LoopPlan| LoopPlan {
        instances: instances(plan.instances),
        segments: plan.segments.iter().map(segment).collect(),
    };
    WritePlan { loops: job.plan.iter().map(plan).collect(), unwritten: Vec::new() }
}

fn layout_of(layout: &job::Layout) -> Layout {
    let item = |item: &job::Item| match item {
        job::Item::Segment(at) => Item::Segment(number(*at)),
        job::Item::Loop(at) => Item::Loop(LoopId::of(*at)),
    };
    Layout {
        order: layout.order.iter().map(|order| order.iter().map(item).collect()).collect(),
        forced: layout.forced.clone(),
        group_columns: layout.group_columns.iter().map(|columns| numbers(columns)).collect(),
        depth: layout.depth.iter().map(|depth| depth.map(number)).collect(),
        capacity: numbers(&layout.capacity),
    }
}

fn envelope_of(envelope: &job::Envelope) -> Envelope {
    Envelope {
        sender_qualifier: text(&envelope.sender_qualifier),
        sender_id: text(&envelope.sender_id),
        receiver_qualifier: text(&envelope.receiver_qualifier),
        receiver_id: text(&envelope.receiver_id),
        application_sender: envelope.application_sender.as_deref().map(text),
        application_receiver: envelope.application_receiver.as_deref().map(text),
        date: envelope.date,
        time: envelope.time,
        usage_indicator: text(&envelope.usage_indicator),
        control_number: envelope.control_number,
        delimiters: Delimiters {
            element: envelope.element,
            component: envelope.component,
            segment: envelope.segment,
            repetition: envelope.repetition,
            release: None,
        },
        line_break: envelope.line_break,
    }
}

/// A table's columns: keys, segment, references, declared.
struct Columns {
    row: Option<ColumnData>,
    segment: Option<ColumnData>,
    refs: Vec<(usize, Option<ColumnData>)>,
    columns: Vec<Option<ColumnData>>,
}

fn columns_of(table: &job::TableData) -> Columns {
    let column = |column: &Option<job::Column>| column.as_ref().map(ColumnData::of);
    Columns {
        row: column(&table.row),
        segment: column(&table.segment),
        refs: table.refs.iter().map(|(above, data)| (number(*above), column(data))).collect(),
        columns: table.columns.iter().map(column).collect(),
    }
}

/// What one run gave: the document, the trace, the findings.
type Emitted = (Vec<u8>, Traces, Vec<Finding>);

/// Makes what the Rust takes of a job that passes refusals 1 to 5, once, and hands on a run of `nest` and
/// `Emitter::run` on it.
fn prepared<R>(job: &job::Job, then: impl FnOnce(&dyn Fn() -> Emitted) -> R) -> R {
    let (spec, plan, layout) = (Spec::of(&job.spec), plan_of(job), layout_of(&job.layout));
    let envelope = envelope_of(&job.envelope);
    let columns: Vec<Columns> = job.data.iter().map(columns_of).collect();
    let bound = |(at, (columns, table)): (usize, (_, &job::TableData))| {
        let columns: &Columns = columns;
        Data {
            name: format!("#{at}"),
            rows: number(table.rows),
            row: columns.row.as_ref(),
            segment: columns.segment.as_ref(),
            refs: columns.refs.iter().map(|(above, data)| (*above, data.as_ref())).collect(),
            columns: columns.columns.iter().map(Option::as_ref).collect(),
        }
    };
    let data: Vec<Data<'_>> = columns.iter().zip(&job.data).enumerate().map(bound).collect();
    let given = envelope.delimiters;
    then(&|| {
        let mut findings = Vec::new();
        let nest = nest::nest(&spec, &plan, &data, &mut findings);
        let mut delimiters =
            vec![(given.element, ELEMENT), (given.component, COMPONENT), (given.segment, SEGMENT)];
        delimiters.extend(given.repetition.map(|byte| (byte, REPETITION)));
        let mut emitter = Emitter {
            spec: &spec,
            plan: &plan,
            layout: &layout,
            data: &data,
            nest: &nest,
            envelope: &envelope,
            separators: Separators {
                element: given.element,
                component: given.component,
                segment: given.segment,
                line_break: envelope.line_break,
            },
            delimiters,
            out: Vec::new(),
            traces: Traces::default(),
            findings,
            last: vec![None; spec.tables().len()],
            counters: vec![envelope.control_number; spec.loops().len()],
            parts: Vec::new(),
            texts: Vec::new(),
        };
        emitter.run();
        (emitter.out, emitter.traces, emitter.findings)
    })
}

/// Runs the Rust on a job that passes refusals 1 to 5.
pub fn run(job: &job::Job) -> Written {
    prepared(job, |once| {
        let (document, traces, findings) = once();
        let trace = format!("{traces:?}");
        Written { document, segments: segments_of(&trace), trace, findings: findings.iter().map(raw).collect() }
    })
}

/// How long `nest` and `Emitter::run` take on a job, in nanoseconds; what they take is made before.
pub fn nanoseconds(job: &job::Job, length: std::time::Duration) -> f64 {
    prepared(job, |once| average(length, || drop(std::hint::black_box(once()))))
}

/// The same from a job's bytes on: reading and judging them, making what the Rust takes, `nest` and `Emitter::run`.
pub fn nanoseconds_from(bytes: &[u8], length: std::time::Duration) -> f64 {
    average(length, || {
        let job = job::check(std::hint::black_box(bytes)).expect("a job that passes refusals 1 to 5");
        prepared(&job, |once| drop(std::hint::black_box(once())));
    })
}

/// The time of a call, over as many as fit into a length of time, in nanoseconds.
fn average(length: std::time::Duration, mut call: impl FnMut()) -> f64 {
    let start = std::time::Instant::now();
    let mut runs = 0u64;
    while start.elapsed() < length {
        call();
        runs += 1;
    }
    start.elapsed().as_nanos() as f64 / runs as f64
}

/// The segments of a trace as it shows itself: `segments: [(0, Some((1, 2))), (3, None)], open: 4`.
fn segments_of(trace: &str) -> Vec<(usize, Option<(usize, usize)>)> {
    let (_, list) = trace.rsplit_once("segments: [").expect("a trace shows its segments");
    let (list, _) = list.rsplit_once("], open: ").expect("a trace shows where it is open");
    let words = list.split(|c: char| !c.is_ascii_alphanumeric()).filter(|word| !word.is_empty());
    let mut words = words.filter(|word| *word != "Some");
    let parse = |word: &str| word.parse::<usize>().expect("a number in a trace");
    let mut segments = Vec::new();
    while let Some(start) = words.next() {
        let row = match words.next().expect("a segment shows its row") {
            "None" => None,
            table => Some((parse(table), parse(words.next().expect("a row follows its table")))),
        };
        segments.push((parse(start), row));
    }
    segments
}

/// The number behind a name; none for the empty name of a table out of range.
fn named(name: &str) -> Option<i128> {
    match name.strip_prefix('#') {
        Some(number) => Some(number.parse().expect("a name is `#` and a number")),
        None => {
            assert!(name.is_empty(), "an unknown name: {name:?}");
            None
        }
    }
}

const FIELDS: [Field; 13] = [
    Field::SenderQualifier,
    Field::SenderId,
    Field::ReceiverQualifier,
    Field::ReceiverId,
    Field::ApplicationSender,
    Field::ApplicationReceiver,
    Field::Date,
    Field::Time,
    Field::UsageIndicator,
    Field::ControlNumber,
    Field::Repetition,
    Field::Component,
    Field::Version,
];

/// Whether an origin is a cell, and its numbers: table, row and column, or the case in `Field`.
fn origin_of(origin: &Origin) -> (bool, Vec<Option<i128>>) {
    match origin {
        Origin::Cell { table, row, column } => (true, vec![named(table), Some(*row as i128), named(column)]),
        Origin::Envelope { field } => {
            let case = FIELDS.iter().position(|case| case.name() == field);
            (false, vec![Some(case.expect("a field's name") as i128)])
        }
        Origin::Row { .. } => unreachable!("findings of a write have cells or fields"),
    }
}

fn reason_number(reason: &str) -> i128 {
    let reasons = [
        "a date needs a year from 1 to 9999",
        "the element holds a two-digit year, read as 1950 to 2049; the year is ",
        "a time must fall within one day",
        "the element holds hours and minutes only",
    ];
    let at = reasons.iter().position(|start| reason.starts_with(start));
    at.expect("a known reason") as i128 + 1
}

fn raw(finding: &Finding) -> Raw {
    let (kind, numbers) = match finding {
        Finding::DuplicateRowNumber { table, row, value, first } => {
            let numbers = vec![named(table), Some(*row as i128), Some((*value).into()), Some(*first as i128)];
            (Kind::DuplicateKey, numbers)
        }
        Finding::MissingParent { table, row, column, value, parent } => {
            assert_eq!(column, parent, "tables and references are named alike");
            let numbers = vec![named(table), Some(*row as i128), named(parent), value.map(i128::from)];
            (Kind::MissingParent, numbers)
        }
        Finding::OutOfOrder { table, row, column, value, previous } => {
            let numbers = vec![
                named(table),
                Some(*row as i128),
                named(column),
                Some((*value).into()),
                Some(*previous as i128),
            ];
            (Kind::OutOfOrder, numbers)
        }
        Finding::MismatchedReference { table, row, column, value, through, parent, parent_row, expected } => {
            assert_eq!(through, parent, "tables and references are named alike");
            let numbers = vec![
                named(table),
                Some(*row as i128),
                named(column),
                Some((*value).into()),
                named(parent),
                Some(*parent_row as i128),
                Some((*expected).into()),
            ];
            (Kind::MismatchedReference, numbers)
        }
        Finding::DelimiterInValue { origin, delimiter, role, .. } => {
            let (cell, mut numbers) = origin_of(origin);
            let roles = [ELEMENT, COMPONENT, SEGMENT, REPETITION];
            let role = roles.iter().position(|other| other == role).expect("a known role");
            numbers.extend([Some((*delimiter).into()), Some(role as i128)]);
            (Kind::Delimiter { cell }, numbers)
        }
        Finding::NotWritable { origin, reason, .. } => {
            let (cell, mut numbers) = origin_of(origin);
            numbers.push(Some(reason_number(reason)));
            (Kind::NotWritable { cell }, numbers)
        }
        Finding::UnwrittenValue { .. } | Finding::ReadBack { .. } => unreachable!("left out"),
    };
    Raw { kind, numbers, shown: format!("{finding:?}") }
}
