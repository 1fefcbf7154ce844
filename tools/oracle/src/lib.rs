//! What the Rust makes of a job: `nest` and `Emitter::run`, with the settings that docs/RULES.md states.
//!
//! The Rust is compiled twice: as it is (`plain`), and with the named lines of a patch (`probed`)
//! that note the stops and count the loop instances, which the Rust doesn't. Both run on every job,
//! and document, findings and trace have to agree.

mod listing;

pub use listing::{listing, listing_lines, program};
/// How long the Rust itself takes on a job.
pub use oxedi_plain::{nanoseconds, nanoseconds_from};

use job::{Job, Refusal};
use oxedi_probed::probe::{self, Bounds, Notes, Over};
use record::{Kind, Raw, Written};
use std::panic::{AssertUnwindSafe, catch_unwind};

/// More loop instances than this are refusal 6.
pub const INSTANCES: u64 = 65_536;

/// What the Rust gave for a job.
#[derive(Debug, Clone, Default, PartialEq, Eq)]
pub struct Outcome {
    pub document: Vec<u8>,
    /// By segment: its first trace entry, and the table and row it comes from.
    pub segments: Vec<(u64, Option<(u64, u64)>)>,
    /// Nest's, then the walk's.
    pub findings: Vec<Finding>,
    /// The calls of `enter`: loop, table, row.
    pub stops: Vec<(u64, u64, u64)>,
    /// How many loop instances the walk entered.
    pub instances: u64,
    /// The same by loop, as far as one was entered.
    pub entered: Vec<u64>,
    /// A counter went on from its highest number: the outcome is that of the proved writer, where it goes on
    /// at 0, and not the Rust's, where it stays (docs/DIFFERENCES.md).
    pub counter_at_highest: bool,
    /// The steps that the run took, as the bound on work counts them.
    pub work: u64,
}

impl Outcome {
    /// Bytes, segments, findings, stops.
    pub fn counts(&self) -> [u64; 4] {
        [self.document.len(), self.segments.len(), self.findings.len(), self.stops.len()]
            .map(|count| count as u64)
    }
}

/// A finding as numbers, in the order of its line in the listing.
#[derive(Debug, Clone, PartialEq, Eq)]
pub enum Finding {
    DuplicateKey {
        table: u64,
        row: u64,
        key: i64,
        first: u64,
    },
    MissingParent {
        table: u64,
        row: u64,
        parent: u64,
        value: Option<i64>,
    },
    OutOfOrder {
        table: u64,
        row: u64,
        above: u64,
        reference: i64,
        highest: u64,
    },
    MismatchedReference {
        table: u64,
        row: u64,
        ancestor: u64,
        value: i64,
        parent: u64,
        parent_row: u64,
        expected: i64,
    },
    Delimiter {
        origin: Origin,
        place: Place,
        byte: u8,
        role: u8,
    },
    NotWritable {
        origin: Origin,
        place: Place,
        reason: u8,
    },
}

#[derive(Debug, Clone, Copy, PartialEq, Eq)]
pub enum Origin {
    Cell {
        table: u64,
        row: u64,
        column: u64,
    },
    /// The case in `Field`.
    Envelope {
        field: u8,
    },
}

#[derive(Debug, Clone, PartialEq, Eq)]
pub struct Place {
    pub id: Vec<u8>,
    pub element: u64,
    pub component: Option<u64>,
}

/// How far a run may go, besides the loop instances. Nothing in refusals 1 to 6 bounds the work of
/// a job, so that a run over many jobs leaves out those that pass this.
#[derive(Debug, Clone, Copy)]
pub struct Bound {
    /// Steps: order items, cells and references read, instances made, parts joined.
    pub work: u64,
    /// Bytes of the document.
    pub length: usize,
}

impl Bound {
    /// For one job that may take its time.
    pub const WIDE: Bound = Bound { work: u64::MAX, length: 1 << 30 };
    /// For runs over many jobs.
    pub const USUAL: Bound = Bound { work: 4_000_000, length: 1 << 22 };
}

/// How a run ended.
#[derive(Debug, Clone, PartialEq, Eq)]
pub enum Run {
    Done(Outcome),
    /// Refusal 6: more loop instances than allowed.
    TooMany,
    /// Given up: the bound on work is passed.
    GivenUp,
    /// The Rust panics, with this message.
    Panicked(String),
}

/// What a call is to give back when every lent list is long enough.
#[derive(Debug, Clone, PartialEq, Eq)]
pub enum Answer {
    /// Refusals 1 to 6.
    Refused(u8),
    Done(Outcome),
    GivenUp,
    Panicked(String),
}

/// The answer to a byte string.
pub fn answer(bytes: &[u8], bound: Bound) -> Answer {
    match job::check(bytes) {
        Err(refusal) => Answer::Refused(refusal.number()),
        Ok(job) => match run(&job, bound) {
            Run::Done(outcome) => Answer::Done(outcome),
            Run::TooMany => Answer::Refused(6),
            Run::GivenUp => Answer::GivenUp,
            Run::Panicked(message) => Answer::Panicked(message),
        },
    }
}

/// Runs both copies of the Rust on a job that passes refusals 1 to 5, which this asserts.
pub fn run(job: &Job, bound: Bound) -> Run {
    assert_eq!(job::judge(job), None::<Refusal>, "only a job that passes refusals 3 to 5 can be run");
    let (written, notes) = match probed(job, bound, false) {
        Probed::Written(written, notes) => (written, notes),
        Probed::Over(Over::Instances) => return Run::TooMany,
        Probed::Over(Over::Work) => return Run::GivenUp,
        Probed::Panicked(message) => {
            let plain = catch_unwind(AssertUnwindSafe(|| oxedi_plain::run(job)));
            assert!(plain.is_err(), "only the probed copy panics: {message}");
            return Run::Panicked(message);
        }
    };
    let plain = match catch_unwind(AssertUnwindSafe(|| oxedi_plain::run(job))) {
        Ok(plain) => plain,
        Err(payload) => panic!("only the plain copy panics: {}", message(payload.as_ref())),
    };
    assert!(plain == written, "the two copies of the Rust disagree");
    if !notes.counter_at_highest {
        return Run::Done(outcome(written, notes));
    }
    match probed(job, bound, true) {
        Probed::Written(written, notes) => Run::Done(outcome(written, notes)),
        Probed::Over(_) => Run::GivenUp,
        Probed::Panicked(message) => Run::Panicked(message),
    }
}

/// How a run of the probed copy ended.
enum Probed {
    Written(Written, Notes),
    Over(Over),
    Panicked(String),
}

fn probed(job: &Job, bound: Bound, wrap: bool) -> Probed {
    probe::start(Bounds { instances: INSTANCES, work: bound.work, length: bound.length, wrap });
    let written = catch_unwind(AssertUnwindSafe(|| oxedi_probed::run(job)));
    let notes = probe::take();
    match written {
        Ok(written) => Probed::Written(written, notes),
        Err(payload) => match payload.downcast_ref::<Over>() {
            Some(&over) => Probed::Over(over),
            None => Probed::Panicked(message(payload.as_ref())),
        },
    }
}

fn message(payload: &(dyn std::any::Any + Send)) -> String {
    let text = payload.downcast_ref::<String>().map(String::as_str);
    text.or(payload.downcast_ref::<&str>().copied()).unwrap_or("no message").to_string()
}

fn outcome(written: Written, notes: Notes) -> Outcome {
    let number = |value: usize| value as u64;
    let mut numbers = notes.numbers.into_iter();
    let mut places = notes.places.into_iter();
    let findings = written.findings.iter().map(|raw| finding(raw, &mut numbers, &mut places)).collect();
    assert!(numbers.next().is_none() && places.next().is_none(), "more notes than findings");
    let segments = written
        .segments
        .iter()
        .map(|&(entry, row)| (number(entry), row.map(|(table, row)| (number(table), number(row)))));
    let stops = notes.stops.iter().map(|&(at, table, row)| (number(at), number(table), number(row)));
    Outcome {
        segments: segments.collect(),
        stops: stops.collect(),
        findings,
        document: written.document,
        instances: notes.instances,
        entered: notes.entered,
        counter_at_highest: notes.counter_at_highest,
        work: notes.work,
    }
}

/// A noted place: identifier, element, component.
type Noted = (Vec<u8>, usize, Option<usize>);

/// A finding with the numbers that the probed copy noted in place of names that give none.
fn finding(
    raw: &Raw,
    numbers: &mut impl Iterator<Item = usize>,
    places: &mut impl Iterator<Item = Noted>,
) -> Finding {
    let held = |at: usize| raw.numbers[at].expect("a number the finding holds");
    let count = |at: usize| held(at) as u64;
    let signed = |at: usize| held(at) as i64;
    let byte = |at: usize| held(at) as u8;
    let mut noted = |at: usize| {
        let number = numbers.next().expect("a note for the finding") as u64;
        assert!(raw.numbers[at].is_none_or(|held| held == i128::from(number)), "note and name disagree");
        number
    };
    let mut place = || {
        let (id, element, component) = places.next().expect("a note for the finding");
        Place { id, element: element as u64, component: component.map(|component| component as u64) }
    };
    let cell = || Origin::Cell { table: count(0), row: count(1), column: count(2) };
    let field = || Origin::Envelope { field: byte(0) };
    match raw.kind {
        Kind::DuplicateKey => {
            Finding::DuplicateKey { table: count(0), row: count(1), key: signed(2), first: count(3) }
        }
        Kind::MissingParent => {
            let value = raw.numbers[3].map(|value| value as i64);
            Finding::MissingParent { table: count(0), row: count(1), parent: noted(2), value }
        }
        Kind::OutOfOrder => Finding::OutOfOrder {
            table: count(0),
            row: count(1),
            above: noted(2),
            reference: signed(3),
            highest: count(4),
        },
        Kind::MismatchedReference => Finding::MismatchedReference {
            table: count(0),
            row: count(1),
            ancestor: noted(2),
            value: signed(3),
            parent: count(4),
            parent_row: count(5),
            expected: signed(6),
        },
        Kind::Delimiter { cell: true } => {
            Finding::Delimiter { origin: cell(), place: place(), byte: byte(3), role: byte(4) }
        }
        Kind::Delimiter { cell: false } => {
            Finding::Delimiter { origin: field(), place: place(), byte: byte(1), role: byte(2) }
        }
        Kind::NotWritable { cell: true } => {
            Finding::NotWritable { origin: cell(), place: place(), reason: byte(3) }
        }
        Kind::NotWritable { cell: false } => {
            Finding::NotWritable { origin: field(), place: place(), reason: byte(1) }
        }
    }
}
