//! What is replayed: good jobs with edits at every place, each limit around its most, each condition of
//! the refusals alone and in pairs.

use generate::faults::{FAULTS, Fault, base, faulty};
use generate::{corners, limits, remit, small};
use job::{Job, encode};

/// A part of the content, in the order of the records.
pub enum Group {
    Job(Vec<u8>),
    Lengths,
    Flips(Vec<u8>),
    Stamp([u8; 4]),
    Strings(Vec<Vec<u8>>),
    Name(String),
}

const LISTING: &str = include_str!("../../samples/listing.txt");

/// Every bit, and all bits at once.
const MASKS: [u8; 9] = [1, 2, 4, 8, 16, 32, 64, 128, 255];

/// Numbers of four bytes put at every place.
const STAMPS: [(&str, u32); 4] = [("2^32-1", u32::MAX), ("2^31", 1 << 31), ("256", 256), ("0", 0)];

/// The jobs that are edited everywhere, by name.
fn jobs() -> Vec<(String, Job)> {
    let mut jobs = vec![
        ("nothing in it".to_string(), Job::default()),
        ("the listing".to_string(), job::parse(LISTING.as_bytes()).expect("the listing is a job")),
        ("the remittance".to_string(), remit::sample()),
    ];
    let spread = [small::JOINING, small::NESTING, small::REPEATING, small::ENVELOPES];
    let mut first = 0;
    for (count, kind) in spread.into_iter().zip(["joining", "nesting", "repeating", "envelope"]) {
        jobs.push((format!("a small job, {kind}"), small::small(first + count / 3)));
        first += count;
    }
    let (name, text) = corners::corners().last().expect("there are corners");
    jobs.push((format!("a corner, {name}"), job::parse(text.as_bytes()).expect("a corner is a job")));
    jobs
}

/// Everything, in order.
pub fn groups() -> Vec<Group> {
    let mut all = Vec::new();
    for (name, job) in jobs() {
        all.push(Group::Job(encode(&job)));
        all.push(Group::Lengths);
        all.push(Group::Name(format!("{name}, every length")));
        all.push(Group::Flips(MASKS.to_vec()));
        all.push(Group::Name(format!("{name}, every bit flipped")));
        for (number, bytes) in STAMPS {
            all.push(Group::Stamp(bytes.to_le_bytes()));
            all.push(Group::Name(format!("{name}, {number} at every place")));
        }
    }
    all.push(Group::Job(encode(&base())));
    limit_groups(&mut all);
    fault_groups(&mut all);
    all
}

/// Each limit one below, at and one above. More loop instances than allowed aren't `check`'s to refuse.
fn limit_groups(all: &mut Vec<Group>) {
    for limit in limits::limits() {
        if limit.refusal > 5 {
            continue;
        }
        let at = |value| encode(&limits::at(&limit, value));
        all.push(Group::Strings((limit.most - 1..=limit.most + 1).map(at).collect()));
        all.push(Group::Name(format!("{} {} to {}", limit.name, limit.most - 1, limit.most + 1)));
    }
}

fn of_number(number: u8) -> Vec<&'static Fault> {
    FAULTS.iter().filter(|fault| fault.number == number).collect()
}

/// Each fault alone; those of 4 and 5 in all pairs; each with a fault of each higher number.
fn fault_groups(all: &mut Vec<Group>) {
    for fault in FAULTS {
        all.push(Group::Strings(vec![faulty(base(), &[fault])]));
        all.push(Group::Name(fault.name.to_string()));
    }
    for (low, high) in [(4, 4), (4, 5), (5, 5)] {
        let mut pairs = Vec::new();
        for (at, first) in of_number(low).into_iter().enumerate() {
            let others = of_number(high);
            let from = if low == high { at + 1 } else { 0 };
            for second in &others[from..] {
                if first.joins() && second.joins() {
                    pairs.push(faulty(base(), &[first, second]));
                }
            }
        }
        all.push(Group::Strings(pairs));
        all.push(Group::Name(format!("a fault of {low} and one of {high}")));
    }
    for low in 1..4 {
        for high in low + 1..=5 {
            let others = of_number(high);
            let pair = |(at, first): (usize, &'static Fault)| {
                let second = others[at % others.len()];
                (first.joins() && second.joins()).then(|| faulty(base(), &[first, second]))
            };
            let pairs = of_number(low).into_iter().enumerate().filter_map(pair).collect();
            all.push(Group::Strings(pairs));
            all.push(Group::Name(format!("a fault of {low} and one of {high}")));
        }
    }
}
