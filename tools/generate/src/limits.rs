//! Jobs whose numbers stand one below, at and one above a limit.

use crate::random::Random;
use crate::remit;
use job::*;

/// A number brought to a value.
pub struct Limit {
    pub name: &'static str,
    /// The highest value allowed.
    pub most: u32,
    pub set: fn(&mut Job, u32),
    /// The refusal past it.
    pub refusal: u8,
}

fn limit(name: &'static str, most: u32, set: fn(&mut Job, u32)) -> Limit {
    Limit { name, most, set, refusal: 3 }
}

fn definition(job: &mut Job) -> &mut Vec<(u32, ElementDef)> {
    let (_, segment) = job.spec.segments.0.last_mut().expect("a definition");
    &mut segment.elements.0
}

fn control(job: &mut Job) -> &mut Control {
    job.spec.loops[0].control.as_mut().expect("control")
}

/// Every limit.
pub fn limits() -> Vec<Limit> {
    vec![
        limit("loops", 32, |job, value| {
            while (job.spec.loops.len() as u32) < value {
                job.spec.roots.push(job.spec.loops.len() as u32);
                job.spec.loops.push(Loop { trigger: b"ZZ".to_vec(), ..Loop::default() });
            }
        }),
        limit("deep loops", 32, |job, value| {
            while (job.spec.loops.len() as u32) < value {
                let number = job.spec.loops.len() as u32;
                let def = Loop { parent: Some(number - 1), trigger: b"ZZ".to_vec(), ..Loop::default() };
                job.spec.loops[number as usize - 1].children.push(number);
                job.layout.order[number as usize - 1].push(Item::Loop(number));
                job.spec.loops.push(def);
                job.plan.push(LoopPlan { instances: Instances::Implied, segments: Vec::new() });
                job.layout.order.push(Vec::new());
            }
            job.plan[value as usize - 1].instances = Instances::Envelope;
        }),
        limit("tables in spec", 16, |job, value| job.spec.tables.resize(value as usize, Table::default())),
        limit("tables in data", 16, |job, value| job.data.resize(value as usize, TableData::default())),
        limit("rows", 4_096, |job, value| {
            let others: u32 = job.data.iter().skip(1).map(|table| table.rows).sum();
            job.data[0].rows = value - others;
            job.plan[2].instances = Instances::Envelope;
        }),
        limit("columns in spec", 32, |job, value| job.spec.tables[0].columns = value),
        limit("columns in data", 32, |job, value| job.data[0].columns.resize(value as usize, None)),
        limit("occurrences", 32, |job, value| {
            job.spec.loops[2].occurrences.resize(value as usize, b"ZZ".to_vec())
        }),
        limit("planned segments", 32, |job, value| {
            let segment = job.plan[2].segments[1].clone();
            job.plan[2].segments.resize(value as usize, segment);
        }),
        limit("element in the map", 255, |job, value| {
            definition(job).last_mut().expect("an element").0 = value
        }),
        limit("component in the map", 255, |job, value| {
            definition(job)[0].1.components.0.last_mut().expect("a component").0 = value;
        }),
        limit("min", 255, |job, value| {
            let (_, isa) = &mut job.spec.segments.0[1];
            isa.elements.0[1].1.min = Some(value);
            isa.elements.0[1].1.max = Some(value);
        }),
        limit("min of a component", 255, |job, value| {
            definition(job)[0].1.components.0.last_mut().expect("a component").1.min = Some(value);
        }),
        limit("opener", 255, |job, value| control(job).opener = value),
        limit("closer", 255, |job, value| control(job).closer = value),
        limit("count element", 255, |job, value| control(job).count_element = value),
        limit("version element", 255, |job, value| {
            job.spec.version.as_mut().expect("a version").element = value
        }),
        limit("planned element", 255, |job, value| {
            job.plan[6].segments[0].elements.last_mut().expect("an element").element = value;
        }),
        limit("planned component", 255, |job, value| {
            job.plan[6].segments[0].elements.last_mut().expect("an element").component = Some(value);
        }),
        limit("step", 255, |job, value| job.spec.tables[3].repeat = Some(Repeat { from: 2, step: value })),
        limit("capacity", 255, |job, value| job.layout.capacity[3] = value),
        Limit {
            name: "scale",
            most: 38,
            set: |job, value| job.data[0].columns[0] = Some(Column::decimal(&[Some(i128::MIN)], value as u8)),
            refusal: 5,
        },
        Limit {
            name: "bytes",
            most: 65_536,
            set: |job, value| {
                let length = encode(job).len();
                let column = job.data[0].columns[10].as_mut().expect("a column");
                if let Values::Binary(_, data) = &mut column.values {
                    data.resize(data.len() + value as usize - length, b'x');
                }
            },
            refusal: 1,
        },
        Limit { name: "instances", most: 65_536, set: |job, value| *job = crowd(value), refusal: 6 },
    ]
}

/// A job of so many loop instances, from 65,000 on: 250 rows with 250 each below them are 62,750; the
/// rest are rows of a loop beside.
pub fn crowd(instances: u32) -> Job {
    let rest = instances - 62_750;
    let text = format!(
        "loop 0 CLP rows 0\nloop 1 SVC in 0 rows 1\nloop 2 N1 rows 2\n\
         table 0\n  rows 250\ntable 1\n  rows 250\ntable 2\n  rows {rest}\n"
    );
    parse(text.as_bytes()).expect("a job")
}

/// A job of some ten thousand instances, near the bound, of several kinds below each other.
pub fn throng(random: &mut Random) -> Job {
    let kinds = ["rows 1", "groups 1", "implied", "envelope", "inside 0"];
    let mut text = String::from("loop 0 CLP rows 0\n  row 0 CLP 1=c0\n");
    let levels = 1 + random.index(3);
    for level in 1..=levels {
        text.push_str(&format!("loop {level} N1 in {} {}\n", level - 1, random.pick(&kinds)));
        text.push_str("  row! 1 N1 1=c0\n");
    }
    text.push_str(&format!("loop {} SVC in {levels} rows 1\n", levels + 1));
    let rows = 20 + random.index(240);
    text.push_str("table 0\n  : int\n");
    for row in 0..rows {
        text.push_str(&format!("  | {row}\n"));
    }
    let below = (65_536 / rows).saturating_sub(random.index(4)).min(4_000 - rows);
    text.push_str("table 1\n  : text\n");
    for row in 0..below {
        text.push_str(if row % 3 == 0 { "  | A\n" } else { "  | B\n" });
    }
    parse(text.as_bytes()).expect("a job")
}

/// The sample with one number at a value.
pub fn at(limit: &Limit, value: u32) -> Job {
    let mut job = remit::sample();
    (limit.set)(&mut job, value);
    job
}
