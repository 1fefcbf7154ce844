//! One fault for each way in which a job is refused with 1 to 5 (docs/RULES.md, "Answers").

use crate::remit;
use job::*;

/// A fault, and the refusal it brings where no lower one applies.
pub struct Fault {
    pub number: u8,
    pub name: &'static str,
    pub make: Make,
}

/// Where a fault is put in.
pub enum Make {
    Job(fn(&mut Job)),
    /// So that most other faults aren't there any more.
    Alone(fn(&mut Job)),
    Sections(fn(&mut [Vec<u8>; 5])),
    Bytes(fn(&mut Vec<u8>)),
}

use Make::{Alone, Bytes, Job as InJob, Sections};

const fn fault(number: u8, name: &'static str, make: Make) -> Fault {
    Fault { number, name, make }
}

impl Fault {
    /// Whether it can be put in beside another.
    pub fn joins(&self) -> bool {
        !matches!(self.make, Alone(_))
    }
}

/// A job that all faults can be put in: it has an entry in every list.
pub fn base() -> Job {
    remit::sample()
}

/// Puts faults into a job; those in sections and bytes last.
pub fn faulty(mut job: Job, faults: &[&Fault]) -> Vec<u8> {
    for fault in faults {
        if let InJob(make) | Alone(make) = fault.make {
            make(&mut job);
        }
    }
    let mut sections = sections(&job);
    for fault in faults {
        if let Sections(make) = fault.make {
            make(&mut sections);
        }
    }
    let mut bytes = seal(&sections);
    for fault in faults {
        if let Bytes(make) = fault.make {
            make(&mut bytes);
        }
    }
    bytes
}

/// The trailer's number at a place, 0 to 5.
fn trailer(bytes: &mut [u8], at: usize) -> &mut [u8; 4] {
    let start = bytes.len() - 24 + at * 4;
    (&mut bytes[start..start + 4]).try_into().expect("four bytes")
}

fn add(number: &mut [u8; 4], more: u32) {
    *number = u32::from_le_bytes(*number).wrapping_add(more).to_le_bytes();
}

fn cut(bytes: &mut Vec<u8>) {
    bytes.pop();
}

fn first_element(job: &mut Job) -> &mut ElementPlan {
    &mut job.plan[6].segments[0].elements[0]
}

/// The definition of SVC: several elements, the first with components.
fn definition(job: &mut Job) -> &mut Vec<(u32, ElementDef)> {
    let found = job.spec.segments.0.iter_mut().find(|(id, _)| id == b"SVC");
    &mut found.expect("the sample defines SVC").1.elements.0
}

fn element_def(job: &mut Job) -> &mut (u32, ElementDef) {
    definition(job).last_mut().expect("an element")
}

fn component_def(job: &mut Job) -> &mut (u32, ComponentDef) {
    definition(job)[0].1.components.0.last_mut().expect("a component")
}

/// A mark or case of the envelope section, found from its end: line break, repetition.
fn from_end(section: &mut [u8], back: usize) -> &mut u8 {
    let at = section.len() - back;
    &mut section[at]
}

/// Every fault.
pub const FAULTS: &[Fault] = &[
    fault(1, "no bytes", Bytes(Vec::clear)),
    fault(1, "23 bytes", Bytes(|bytes| bytes.truncate(23))),
    fault(
        1,
        "above 65,536 bytes",
        Bytes(|bytes| {
            let more = 65_537 - bytes.len() as u32;
            let at = bytes.len() - 24;
            bytes.splice(at..at, vec![0; more as usize]);
            add(trailer(bytes, 5), more);
        }),
    ),
    fault(1, "first start not 0", Bytes(|bytes| add(trailer(bytes, 0), 1))),
    fault(1, "start below the one before", Bytes(|bytes| *trailer(bytes, 2) = [0; 4])),
    fault(
        1,
        "data behind the trailer's start",
        Bytes(|bytes| {
            let over = bytes.len() as u32 - 23;
            *trailer(bytes, 4) = over.to_le_bytes();
        }),
    ),
    fault(1, "length one more", Bytes(|bytes| add(trailer(bytes, 5), 1))),
    fault(1, "length one less", Bytes(|bytes| add(trailer(bytes, 5), u32::MAX))),
    fault(1, "a byte behind", Bytes(|bytes| bytes.push(0))),
    fault(1, "last byte gone", Bytes(cut)),
    fault(2, "a byte over in spec", Sections(|sections| sections[0].push(0))),
    fault(2, "a byte over in plan", Sections(|sections| sections[1].push(0))),
    fault(2, "a byte over in layout", Sections(|sections| sections[2].push(0))),
    fault(2, "a byte over in envelope", Sections(|sections| sections[3].push(0))),
    fault(2, "a byte over in data", Sections(|sections| sections[4].push(0))),
    fault(2, "spec cut", Sections(|sections| cut(&mut sections[0]))),
    fault(2, "plan cut", Sections(|sections| cut(&mut sections[1]))),
    fault(2, "layout cut", Sections(|sections| cut(&mut sections[2]))),
    fault(2, "envelope cut", Sections(|sections| cut(&mut sections[3]))),
    fault(2, "data cut", Sections(|sections| cut(&mut sections[4]))),
    fault(2, "data empty", Sections(|sections| sections[4].clear())),
    fault(2, "line break 2", Sections(|sections| *from_end(&mut sections[3], 1) = 2)),
    fault(2, "repetition marked 2", Sections(|sections| *from_end(&mut sections[3], 3) = 2)),
    fault(2, "instances 6", Sections(|sections| sections[1][4] = 6)),
    fault(2, "a parent marked 255", Sections(|sections| sections[0][4] = 255)),
    fault(2, "a count far too high", Sections(|sections| sections[4][..4].fill(255))),
    fault(
        2,
        "segment keys equal",
        InJob(|job| {
            let first = job.spec.segments.0[0].clone();
            job.spec.segments.0.insert(0, first);
        }),
    ),
    fault(2, "segment keys fall", InJob(|job| job.spec.segments.0.reverse())),
    fault(
        2,
        "element keys equal",
        InJob(|job| {
            let first = job.spec.segments.0[0].1.elements.0[0].clone();
            job.spec.segments.0[0].1.elements.0.insert(0, first);
        }),
    ),
    fault(2, "component keys fall", InJob(|job| definition(job)[0].1.components.0.reverse())),
    fault(
        3,
        "33 loops",
        InJob(|job| {
            while job.spec.loops.len() < 33 {
                job.spec.roots.push(job.spec.loops.len() as u32);
                job.spec.loops.push(Loop { trigger: b"ZZ".to_vec(), ..Loop::default() });
            }
        }),
    ),
    fault(3, "17 tables in spec", InJob(|job| job.spec.tables.resize(17, Table::default()))),
    fault(3, "17 tables in data", InJob(|job| job.data.resize(17, TableData::default()))),
    fault(
        3,
        "4,097 rows",
        InJob(|job| {
            let others: u32 = job.data.iter().skip(1).map(|table| table.rows).sum();
            job.data[0].rows = 4_097 - others;
        }),
    ),
    fault(
        3,
        "rows that pass 32 bits",
        InJob(|job| {
            job.data[0].rows = u32::MAX;
            job.data[1].rows = 1;
        }),
    ),
    fault(3, "33 columns in spec", InJob(|job| job.spec.tables[0].columns = 33)),
    fault(3, "33 columns in data", InJob(|job| job.data[0].columns.resize(33, None))),
    fault(3, "33 occurrences", InJob(|job| job.spec.loops[2].occurrences.resize(33, b"ZZ".to_vec()))),
    fault(
        3,
        "33 planned segments",
        InJob(|job| {
            let segment = job.plan[2].segments[0].clone();
            job.plan[2].segments.resize(33, segment);
        }),
    ),
    fault(
        3,
        "planned segments of a loop past the last",
        InJob(|job| {
            let segments = vec![job.plan[2].segments[0].clone(); 33];
            job.plan.push(LoopPlan { instances: Instances::Absent, segments });
        }),
    ),
    fault(3, "element 256 in the map", InJob(|job| element_def(job).0 = 256)),
    fault(3, "component 256 in the map", InJob(|job| component_def(job).0 = 256)),
    fault(3, "min 256", InJob(|job| element_def(job).1.min = Some(256))),
    fault(3, "min 256 of a component", InJob(|job| component_def(job).1.min = Some(256))),
    fault(3, "opener 256", InJob(|job| job.spec.loops[0].control.as_mut().expect("control").opener = 256)),
    fault(3, "closer 256", InJob(|job| job.spec.loops[0].control.as_mut().expect("control").closer = 256)),
    fault(
        3,
        "count element 256",
        InJob(|job| {
            job.spec.loops[0].control.as_mut().expect("control").count_element = 256;
        }),
    ),
    fault(3, "version element 256", InJob(|job| job.spec.version.as_mut().expect("a version").element = 256)),
    fault(3, "planned element 256", InJob(|job| first_element(job).element = 256)),
    fault(3, "planned element far too high", InJob(|job| first_element(job).element = u32::MAX)),
    fault(3, "planned component 256", InJob(|job| first_element(job).component = Some(256))),
    fault(3, "step 256", InJob(|job| job.spec.tables[3].repeat = Some(Repeat { from: 2, step: 256 }))),
    fault(
        3,
        "step 256 without segment",
        InJob(|job| job.spec.tables[0].repeat = Some(Repeat { from: 2, step: 256 })),
    ),
    fault(3, "capacity 256", InJob(|job| job.layout.capacity[3] = 256)),
    fault(3, "capacity 256 past the tables", InJob(|job| job.layout.capacity.push(256))),
    fault(4, "parent out of range", InJob(|job| job.spec.loops[7].parent = Some(8))),
    fault(4, "child out of range", InJob(|job| job.spec.loops[7].children.push(8))),
    fault(4, "root out of range", InJob(|job| job.spec.roots.push(8))),
    fault(4, "table's loop out of range", InJob(|job| job.spec.tables[0].loops.push(8))),
    fault(4, "order's loop out of range", InJob(|job| job.layout.order[7].push(Item::Loop(8)))),
    fault(
        4,
        "no loops, but a root",
        Alone(|job| {
            job.spec.loops.clear();
            job.layout.order.clear();
            for table in &mut job.spec.tables {
                table.loops.clear();
            }
        }),
    ),
    fault(4, "child that has another parent", InJob(|job| job.spec.loops[6].children.push(5))),
    fault(4, "child that has no parent", InJob(|job| job.spec.loops[7].parent = None)),
    fault(4, "parent that lacks the child", InJob(|job| job.spec.loops[6].children.clear())),
    fault(4, "child twice", InJob(|job| job.spec.loops[6].children.push(7))),
    fault(
        4,
        "ring of one",
        InJob(|job| {
            job.spec.roots.clear();
            job.spec.loops[0].parent = Some(0);
            job.spec.loops[0].children.push(0);
        }),
    ),
    fault(
        4,
        "ring of all above",
        InJob(|job| {
            job.spec.roots.clear();
            job.spec.loops[0].parent = Some(7);
            job.spec.loops[7].children.push(0);
        }),
    ),
    fault(4, "root missing", InJob(|job| job.spec.roots.clear())),
    fault(4, "root twice", InJob(|job| job.spec.roots.push(0))),
    fault(4, "root that has a parent", InJob(|job| job.spec.roots.push(1))),
    fault(4, "order names itself", InJob(|job| job.layout.order[6].push(Item::Loop(6)))),
    fault(4, "order names a grandchild", InJob(|job| job.layout.order[5].push(Item::Loop(7)))),
    fault(4, "order names a child twice", InJob(|job| job.layout.order[6].push(Item::Loop(7)))),
    fault(4, "order past the loops names one", InJob(|job| job.layout.order.push(vec![Item::Loop(0)]))),
    fault(5, "element and component equal", InJob(|job| job.envelope.element = job.envelope.component)),
    fault(5, "component and segment equal", InJob(|job| job.envelope.segment = job.envelope.component)),
    fault(5, "element and segment equal", InJob(|job| job.envelope.segment = job.envelope.element)),
    fault(5, "repetition equal", InJob(|job| job.envelope.repetition = Some(job.envelope.segment))),
    fault(5, "element a letter", InJob(|job| job.envelope.element = b'z')),
    fault(5, "component a digit", InJob(|job| job.envelope.component = b'0')),
    fault(5, "segment a space", InJob(|job| job.envelope.segment = b' ')),
    fault(5, "repetition a minus", InJob(|job| job.envelope.repetition = Some(b'-'))),
    fault(5, "repetition a point", InJob(|job| job.envelope.repetition = Some(b'.'))),
    fault(5, "trigger of one byte", InJob(|job| job.spec.loops[7].trigger = b"S".to_vec())),
    fault(5, "trigger of four bytes", InJob(|job| job.spec.loops[7].trigger = b"SVC1".to_vec())),
    fault(5, "trigger in small letters", InJob(|job| job.spec.loops[7].trigger = b"svc".to_vec())),
    fault(5, "occurrence with a blank", InJob(|job| job.spec.loops[7].occurrences[0] = b"S C".to_vec())),
    fault(5, "empty end", InJob(|job| job.spec.loops[7].end = Some(Vec::new()))),
    fault(
        5,
        "segment key too long",
        InJob(|job| {
            job.spec.segments.0.push((b"ZZZZ".to_vec(), SegmentDef::default()));
        }),
    ),
    fault(
        5,
        "version's segment",
        InJob(|job| job.spec.version.as_mut().expect("a version").segment = b"G".to_vec()),
    ),
    fault(5, "scale 39 of a key", InJob(|job| job.data[0].row = Some(Column::int64(&[], 39)))),
    fault(5, "scale 39 of a segment column", InJob(|job| job.data[0].segment = Some(Column::int64(&[], 39)))),
    fault(5, "scale 39 of a reference", InJob(|job| job.data[1].refs[0].1 = Some(Column::decimal(&[], 39)))),
    fault(5, "scale 255 of a column", InJob(|job| job.data[0].columns[0] = Some(Column::decimal(&[], 255)))),
    fault(5, "sender's qualifier not ASCII", InJob(|job| job.envelope.sender_qualifier.push(128))),
    fault(5, "sender not ASCII", InJob(|job| job.envelope.sender_id.push(255))),
    fault(5, "receiver's qualifier not ASCII", InJob(|job| job.envelope.receiver_qualifier.push(128))),
    fault(5, "receiver not ASCII", InJob(|job| job.envelope.receiver_id.push(128))),
    fault(5, "application sender not ASCII", InJob(|job| job.envelope.application_sender = Some(vec![128]))),
    fault(
        5,
        "application receiver not ASCII",
        InJob(|job| job.envelope.application_receiver = Some(vec![128])),
    ),
    fault(5, "usage indicator not ASCII", InJob(|job| job.envelope.usage_indicator = vec![200])),
    fault(5, "code not ASCII", InJob(|job| element_def(job).1.codes.push(vec![b'A', 128]))),
    fault(5, "component's code not ASCII", InJob(|job| component_def(job).1.codes.push(vec![128]))),
    fault(
        5,
        "version's value not ASCII",
        InJob(|job| job.spec.version.as_mut().expect("a version").value.push(128)),
    ),
];
