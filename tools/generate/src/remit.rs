//! 835-like jobs: a remittance of three claims with other rows, separators and envelope. Its own claims need not
//! balance; the sample for readers, `tools/samples/remittance.txt`, is another.

use crate::cells::{self, Kind, Mood};
use crate::random::Random;
use crate::rows::{self, Shape};
use job::{Envelope, Job, Usage, Value};

const SAMPLE: &str = include_str!("../../samples/three_claims.txt");

/// The remittance of three claims as it is.
pub fn sample() -> Job {
    job::parse(SAMPLE.as_bytes()).expect("the sample is a job")
}

/// An envelope: who, when, with what.
pub fn envelope(random: &mut Random, mood: Mood) -> Envelope {
    let mut envelope = Envelope::default();
    let mut bytes = b"*:~^|>!{}\n\t\x1c\x1d\x1e\x1f\x80\xff\0,;".to_vec();
    if random.chance(40) {
        if mood == Mood::Plausible {
            bytes.truncate(10);
        }
        random.shuffle(&mut bytes);
    }
    (envelope.element, envelope.component, envelope.segment) = (bytes[0], bytes[1], bytes[2]);
    envelope.repetition = random.chance(70).then_some(bytes[3]);
    envelope.line_break = random.chance(40);
    envelope.date = cells::days(random, mood);
    envelope.time = cells::seconds(random, mood);
    envelope.control_number = match (mood, random.below(8)) {
        (Mood::Plausible, _) => random.below(1_000_000_000),
        (_, 0) => u64::MAX - random.below(3),
        (_, 1) => random.bits(),
        (_, 2) => 10u64.pow(random.number(20)),
        _ => random.below(2_000),
    };
    let frame = envelope.clone();
    let text = |random: &mut Random| cells::ascii(random, &frame, mood);
    if random.chance(60) {
        envelope.sender_qualifier = text(random);
        envelope.sender_id = text(random);
        envelope.receiver_qualifier = text(random);
        envelope.receiver_id = text(random);
        envelope.usage_indicator = text(random);
    }
    if random.chance(30) {
        envelope.application_sender = Some(text(random));
    }
    if random.chance(30) {
        envelope.application_receiver = Some(text(random));
    }
    envelope
}

/// A remittance with a complete plan.
pub fn remittance(random: &mut Random, mood: Mood) -> Job {
    let mut job = sample();
    job.envelope = envelope(random, mood);
    if random.chance(30) {
        for def in &mut job.spec.loops {
            def.usage = if random.chance(50) { Usage::Required } else { Usage::Situational };
        }
        for forced in job.layout.forced.iter_mut().flatten() {
            *forced = random.chance(50);
        }
        for order in &mut job.layout.order {
            random.shuffle(order);
        }
        job.layout.capacity[3] = random.number(8);
    }
    let separators = [job.envelope.element, job.envelope.component, job.envelope.segment];
    let clash = |bytes: &[u8]| bytes.iter().any(|byte| separators.contains(byte));
    for element in
        job.plan.iter_mut().flat_map(|plan| &mut plan.segments).flat_map(|segment| &mut segment.elements)
    {
        if let Value::Code(code) = &mut element.value
            && clash(code)
        {
            code.clear();
        }
    }
    let kinds: Vec<Vec<Kind>> = job
        .data
        .iter()
        .map(|table| table.columns.iter().flatten().map(|column| Kind::of(&column.values)).collect())
        .collect();
    let large = random.chance(5);
    let claims = 1 + random.index(if large { 60 } else { 5 });
    let services = random.index(claims * 3 + 1);
    let adjustments = random.index(services + claims + 1);
    let sizes = [1 + random.index(if large { 4 } else { 2 }), claims, services, adjustments];
    let shapes: Vec<Shape> =
        kinds.into_iter().zip(sizes).map(|(kinds, rows)| Shape { rows, kinds }).collect();
    rows::fill(random, &mut job, &shapes, mood);
    job
}
