//! Complete plans with strange parts, and complete plans with one condition broken.

use crate::cells::Mood;
use crate::random::Random;
use crate::{complete, damage, remit};
use job::*;

/// A job with a complete plan, changed as far as the plan stays complete.
pub fn strange(random: &mut Random, mood: Mood) -> Job {
    let mut job = whole(random, mood);
    for _ in 0..3 + random.below(10) {
        let mut next = job.clone();
        change(random, &mut next);
        if judge(&next).is_none() && job::complete::gap(&next).is_none() {
            job = next;
        }
    }
    if random.chance(60) {
        wash(&mut job);
    }
    job
}

/// A job whose plan breaks one condition, numbered as in `job::complete`: 3, 4 or 5 alone, or 1 or 2 by one change.
/// Complete where no such change was found.
pub fn broken(random: &mut Random, mood: Mood) -> Job {
    let condition = 1 + random.below(5) as u8;
    let job = strange(random, mood);
    for _ in 0..200 {
        let mut next = job.clone();
        change(random, &mut next);
        if judge(&next).is_none()
            && job::complete::gap(&next) == Some(condition)
            && (condition < 3 || (condition + 1..=5).all(|later| job::complete::holds(&next, later)))
        {
            return next;
        }
    }
    job
}

fn whole(random: &mut Random, mood: Mood) -> Job {
    if random.chance(25) { remit::remittance(random, mood) } else { complete::complete(random, mood) }
}

/// One change, which a complete plan may survive.
fn change(random: &mut Random, job: &mut Job) {
    let number = random.index(job.spec.loops.len());
    let table = random.index(job.spec.tables.len());
    match random.below(16) {
        0 | 1 => add_loop(random, job),
        2 | 3 => move_loop(random, job),
        4 => {
            // A rule, and one more trigger.
            job.spec.loops[number].control.get_or_insert(Control {
                opener: 1 + random.number(3),
                closer: 1,
                count_element: 2,
                count: if random.chance(50) { Count::Segments } else { Count::Children },
            });
            job.spec.loops[number].end = random.chance(80).then(|| b"SE".to_vec());
            let id = job.spec.loops[number].trigger.clone();
            add_segment(job, number, &id, Source::Envelope, Vec::new());
        }
        5 => job.layout.depth[number] = random.chance(80).then(|| random.number(5)),
        6 => job.layout.forced[number].truncate(random.index(3)),
        7 => job.layout.group_columns[number] = (0..random.below(4)).map(|_| random.number(6)).collect(),
        8 => job.layout.capacity[table] = *random.pick(&[0, 1, 2, 3, 9, 255]),
        9 => change_text(random, job),
        10 => change_table(random, &mut job.spec.tables[table]),
        11 => job.plan[number].instances = instances(random, job),
        12 => damage::tweak(random, job),
        _ => complete::break_plan(random, job),
    }
}

/// Any kind of instances, of tables that mostly exist.
fn instances(random: &mut Random, job: &Job) -> Instances {
    let past = usize::from(random.chance(5));
    let table = random.number(job.spec.tables.len() + past);
    match random.below(8) {
        0 => Instances::Absent,
        1 => Instances::Envelope,
        2 => Instances::Implied,
        3 | 4 => Instances::Inside(table),
        _ => Instances::Groups(table),
    }
}

/// A loop more, below any loop or none, that may plan a segment.
fn add_loop(random: &mut Random, job: &mut Job) {
    let number = job.spec.loops.len() as u32;
    let parent = random.chance(80).then(|| random.number(job.spec.loops.len()));
    let usage = if random.chance(40) { Usage::Required } else { Usage::Situational };
    let instances = instances(random, job);
    job.spec.loops.push(Loop { parent, trigger: b"HL".to_vec(), usage, ..Loop::default() });
    job.plan.push(LoopPlan { instances, segments: Vec::new() });
    job.layout.order.push(Vec::new());
    job.layout.forced.push(Vec::new());
    job.layout.group_columns.push((0..random.below(3)).map(|_| random.number(4)).collect());
    job.layout.depth.push(None);
    attach(random, job, number, parent);
    for _ in 0..random.below(3) {
        let table = random.number(job.spec.tables.len());
        let value = Value::Column(random.number(4));
        let elements = vec![ElementPlan { element: 1 + random.number(3), component: None, value }];
        add_segment(job, number as usize, b"HL", Source::Row(table), elements);
    }
}

/// A planned segment more, with its place in the order.
fn add_segment(job: &mut Job, number: usize, id: &[u8], source: Source, elements: Vec<ElementPlan>) {
    let occurrences = &mut job.spec.loops[number].occurrences;
    occurrences.push(id.to_vec());
    let occurrence = occurrences.len() as u32 - 1;
    let segments = &mut job.plan[number].segments;
    job.layout.order[number].insert(0, Item::Segment(segments.len() as u32));
    segments.push(SegmentPlan { occurrence, source, elements });
}

/// A loop, with all below it, goes below another or below none.
fn move_loop(random: &mut Random, job: &mut Job) {
    let number = random.number(job.spec.loops.len());
    let parent = random.chance(80).then(|| random.number(job.spec.loops.len()));
    match job.spec.loops[number as usize].parent {
        Some(old) => {
            job.spec.loops[old as usize].children.retain(|child| *child != number);
            job.layout.order[old as usize].retain(|item| *item != Item::Loop(number));
        }
        None => job.spec.roots.retain(|root| *root != number),
    }
    job.spec.loops[number as usize].parent = parent;
    attach(random, job, number, parent);
}

fn attach(random: &mut Random, job: &mut Job, number: u32, parent: Option<u32>) {
    match parent {
        Some(parent) => {
            job.spec.loops[parent as usize].children.push(number);
            let order = &mut job.layout.order[parent as usize];
            order.insert(random.index(order.len() + 1), Item::Loop(number));
        }
        None => job.spec.roots.push(number),
    }
}

/// A text that may hold the repetition separator.
fn change_text(random: &mut Random, job: &mut Job) {
    let mut text = random.pick(&[&b""[..], b"005010X221A1", b"^", b"U"]).to_vec();
    text.extend(job.envelope.repetition.filter(|byte| byte.is_ascii() && random.chance(50)));
    let planned = job.plan.iter_mut().flat_map(|plan| &mut plan.segments);
    let mut planned: Vec<&mut ElementPlan> = planned.flat_map(|segment| &mut segment.elements).collect();
    let at = random.index(job.spec.segments.0.len());
    let opens = |def: &&Loop| def.control.is_some();
    match (random.below(5), job.spec.segments.0.get_mut(at)) {
        (4, _) => {
            // A code of its own in place of the repetition separator.
            let id = job.spec.loops.iter().find(opens).map(|def| def.trigger.clone());
            let def = job.spec.segments.0.iter_mut().find(|(other, _)| Some(other) == id.as_ref());
            let elements = def.into_iter().flat_map(|(_, def)| &mut def.elements.0);
            for (_, element) in elements.filter(|(at, _)| *at == 11) {
                element.codes = vec![text.clone()];
            }
        }
        (0, _) => {
            let segment = random.pick(&job.spec.loops).trigger.clone();
            job.spec.version = Some(Version { segment, element: 1 + random.number(16), value: text });
        }
        (1, _) if !planned.is_empty() => {
            let at = random.index(planned.len());
            planned[at].value = Value::Code(text);
        }
        (_, Some((_, def))) => {
            let at = random.index(def.elements.0.len());
            if let Some((_, element)) = def.elements.0.get_mut(at) {
                match random.below(3) {
                    0 => element.codes = vec![text],
                    1 => element.components = Map(vec![(1, ComponentDef::default())]),
                    _ => element.codes.clear(),
                }
            }
        }
        _ => {}
    }
}

/// A table with other ancestors or another place for its repeats, or a repeat table with a parent.
fn change_table(random: &mut Random, table: &mut Table) {
    match random.below(4) {
        0 => drop(table.ancestors.pop()),
        1 => table.ancestors.push(random.number(6)),
        2 => random.shuffle(&mut table.loops),
        _ if table.segment => table.parent = Some(random.number(3)),
        _ => table.repeat = Some(Repeat { from: 1, step: 1 + random.number(3) }),
    }
}

/// No cell and no text of the envelope holds a separator any more.
fn wash(job: &mut Job) {
    let separators = job.envelope.separators();
    let envelope = &mut job.envelope;
    let texts = [
        Some(&mut envelope.sender_qualifier),
        Some(&mut envelope.sender_id),
        Some(&mut envelope.receiver_qualifier),
        Some(&mut envelope.receiver_id),
        Some(&mut envelope.usage_indicator),
        envelope.application_sender.as_mut(),
        envelope.application_receiver.as_mut(),
    ];
    let columns = job.data.iter_mut().flat_map(|data| data.columns.iter_mut().flatten());
    let cells = columns.filter_map(|column| match &mut column.values {
        Values::Binary(_, data) => Some(data),
        _ => None,
    });
    for byte in texts.into_iter().flatten().chain(cells).flatten() {
        if separators.contains(byte) {
            *byte = b'S';
        }
    }
}
