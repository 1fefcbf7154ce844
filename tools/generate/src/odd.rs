//! Odd plans that pass refusals 1 to 5: numbers out of range, places that don't rise, lists of
//! other lengths, loops of every kind in any nesting.

use crate::cells::{self, Kind, Mood};
use crate::random::Random;
use crate::remit;
use crate::rows::{self, Shape};
use job::*;

const IDS: [&[u8]; 9] = [b"ISA", b"GS", b"ST", b"N1", b"N11", b"CLP", b"SVC", b"CAS", b"00"];

fn id(random: &mut Random) -> Vec<u8> {
    random.pick(&IDS).to_vec()
}

/// A number that is mostly below a bound.
fn mostly(random: &mut Random, bound: usize) -> u32 {
    match random.below(40) {
        0 => bound as u32,
        1 => bound as u32 + 1 + random.number(20),
        2 => u32::MAX - random.number(2),
        _ => random.number(bound),
    }
}

/// A place: small, and mostly from 1 on.
fn place(random: &mut Random) -> u32 {
    match random.below(30) {
        0 => 0,
        1 => *random.pick(&[255, 254, 100, 16]),
        _ => 1 + random.number(6),
    }
}

/// A component: mostly one of the first three.
fn component(random: &mut Random) -> u32 {
    if random.chance(80) { 1 + random.number(3) } else { place(random) }
}

/// A tree of loops: parents, children and roots agree.
fn tree(random: &mut Random, count: usize) -> (Vec<Loop>, Vec<u32>) {
    let mut loops = vec![Loop::default(); count];
    let mut names: Vec<u32> = (0..count as u32).collect();
    if random.chance(30) {
        random.shuffle(&mut names);
    }
    let mut roots = Vec::new();
    for at in 0..count {
        let number = names[at];
        if at > 0 && random.chance(80) {
            let reach = if random.chance(60) { 2.min(at) } else { at };
            let parent = names[at - 1 - random.index(reach)];
            loops[number as usize].parent = Some(parent);
            loops[parent as usize].children.push(number);
        } else {
            roots.push(number);
        }
    }
    if random.chance(20) {
        random.shuffle(&mut roots);
        for def in &mut loops {
            random.shuffle(&mut def.children);
        }
    }
    (loops, roots)
}

fn definitions(random: &mut Random, envelope: &Envelope) -> Map<Vec<u8>, SegmentDef> {
    let mut ids: Vec<&[u8]> = IDS.iter().copied().filter(|_| random.chance(60)).collect();
    ids.sort_unstable();
    let defs = ids.into_iter().map(|id| {
        let many = random.chance(30);
        let mut elements = Vec::new();
        let mut at = 0;
        for _ in 0..random.below(if many { 18 } else { 6 }) {
            at += if many { 1 } else { 1 + random.number(3) };
            let (kind, min, max, codes) = form(random, envelope);
            let mut components = Map::default();
            for component in 1..=random.number(4) {
                if random.chance(30) {
                    let (kind, min, max, codes) = form(random, envelope);
                    components.0.push((component, ComponentDef { kind, min, max, codes }));
                }
            }
            let at = if random.chance(3) && elements.is_empty() { 0 } else { at };
            elements.push((at, ElementDef { kind, min, max, components, codes }));
        }
        (id.to_vec(), SegmentDef { elements: Map(elements) })
    });
    Map(defs.collect())
}

fn form(random: &mut Random, envelope: &Envelope) -> (job::Kind, Option<u32>, Option<u32>, Vec<Vec<u8>>) {
    use job::Kind;
    let kind = match random.below(7) {
        0 => Kind::Id,
        1 => Kind::N(random.number(3) as u8),
        2 => Kind::R(2),
        3 => Kind::Dt,
        4 => Kind::Tm,
        _ => Kind::An,
    };
    let min = random.chance(50).then(|| *random.pick(&[0, 1, 2, 3, 4, 6, 9, 15, 255]));
    let max = match random.below(4) {
        0 => None,
        1 => min,
        _ => Some(*random.pick(&[0, 3, 4, 5, 6, 7, 8, 9, 35, u32::MAX])),
    };
    let mut codes = Vec::new();
    if random.chance(30) {
        for _ in 0..=random.below(2) {
            codes.push(cells::ascii(random, envelope, Mood::Hostile));
        }
    }
    (kind, min, max, codes)
}

/// The instances of a loop below loops that give rows of some tables: mostly such that there are any.
fn instances(random: &mut Random, tables: &[Table], above: &[u32]) -> Instances {
    let reached = |table: &u32| match tables[*table as usize].parent {
        None => !tables[*table as usize].segment,
        Some(parent) => above.contains(&parent),
    };
    let rows: Vec<u32> = (0..tables.len() as u32).filter(reached).collect();
    let sensible = random.chance(75);
    let wild = mostly(random, tables.len());
    let row = if sensible && !rows.is_empty() { *random.pick(&rows) } else { wild };
    let inside = if sensible && !above.is_empty() { *random.pick(above) } else { wild };
    // With no row above, a loop inside one or around others is mostly empty.
    let kind = if above.is_empty() && random.chance(80) { 1 + random.below(14) } else { random.below(20) };
    match kind {
        0 => Instances::Absent,
        1 | 2 => Instances::Envelope,
        3..=11 => Instances::Rows(row),
        12..=14 => Instances::Groups(row),
        15..=17 => Instances::Inside(inside),
        _ => Instances::Implied,
    }
}

/// The plan of every loop, parents before children.
fn plans(random: &mut Random, spec: &Spec) -> Vec<LoopPlan> {
    let mut plans = vec![LoopPlan::default(); spec.loops.len()];
    let mut waiting: Vec<(u32, Vec<u32>)> = spec.roots.iter().map(|&root| (root, Vec::new())).collect();
    while let Some((number, mut above)) = waiting.pop() {
        let def = &spec.loops[number as usize];
        let instances = instances(random, &spec.tables, &above);
        if let Instances::Rows(table) | Instances::Groups(table) = instances {
            above.push(table);
            above.retain(|&table| (table as usize) < spec.tables.len());
        }
        plans[number as usize] = loop_plan(random, def, instances, &above, spec.tables.len());
        waiting.extend(def.children.iter().map(|&child| (child, above.clone())));
    }
    plans
}

fn loop_plan(
    random: &mut Random,
    def: &Loop,
    instances: Instances,
    above: &[u32],
    tables: usize,
) -> LoopPlan {
    let count = (1 + random.below(4)).min(random.below(12));
    let segments = (0..count).map(|_| {
        let table =
            if random.chance(80) && !above.is_empty() { *random.pick(above) } else { mostly(random, tables) };
        let source = match random.below(10) {
            0 | 1 => Source::Envelope,
            2..=4 => Source::Repeat(mostly(random, tables)),
            _ => Source::Row(table),
        };
        let mut elements: Vec<ElementPlan> = (0..(1 + random.below(5)).min(random.below(14)))
            .map(|_| ElementPlan {
                element: place(random),
                component: random.chance(30).then(|| component(random)),
                value: match random.below(10) {
                    0 | 1 => Value::Code(cells::text(random, &Envelope::default(), Mood::Hostile)),
                    2 | 3 => Value::Group(mostly(random, 3)),
                    _ => Value::Column(mostly(random, 3)),
                },
            })
            .collect();
        if random.chance(60) {
            elements.sort_by_key(|element| (element.element, element.component));
        }
        SegmentPlan { occurrence: mostly(random, def.occurrences.len()), source, elements }
    });
    LoopPlan { instances, segments: segments.collect() }
}

fn order(random: &mut Random, def: Option<&Loop>, segments: usize) -> Vec<Item> {
    let mut items: Vec<Item> = (0..segments as u32).map(Item::Segment).collect();
    if let Some(def) = def {
        let children = def.children.iter().filter(|_| random.chance(95));
        items.extend(children.map(|&child| Item::Loop(child)).collect::<Vec<_>>());
    }
    if random.chance(60) {
        random.shuffle(&mut items);
    }
    if random.chance(15) {
        let at = random.index(items.len() + 1);
        let segment = Item::Segment(mostly(random, segments));
        items.insert(at, segment);
    }
    if random.chance(10) && !items.is_empty() {
        items.remove(random.index(items.len()));
    }
    items
}

/// The length of a list that is mostly as long as another.
fn length(random: &mut Random, usual: usize) -> usize {
    match random.below(25) {
        0 => usual.saturating_sub(1),
        1 => usual + 1,
        2 => random.index(usual + 1),
        _ => usual,
    }
}

/// A job with an odd plan, on so many loops and tables at most.
pub fn odd(random: &mut Random, loops: usize, tables: usize) -> Job {
    let mood = if random.chance(70) { Mood::Hostile } else { Mood::Plausible };
    let mut job = Job { envelope: remit::envelope(random, mood), ..Job::default() };
    let loops = 1 + random.index(loops).max(random.index(loops));
    let tables = if random.chance(95) { 1 + random.index(tables) } else { 0 };
    (job.spec.loops, job.spec.roots) = tree(random, loops);
    job.spec.segments = definitions(random, &job.envelope);
    if random.chance(40) {
        let value = cells::ascii(random, &job.envelope, Mood::Hostile);
        job.spec.version = Some(Version { segment: id(random), element: place(random), value });
    }
    let usual = job.spec.version.as_ref().map_or(b"ISA".to_vec(), |version| version.segment.clone());
    for def in &mut job.spec.loops {
        def.trigger = if random.chance(30) { usual.clone() } else { id(random) };
        def.occurrences = (0..1 + random.below(4)).map(|_| id(random)).collect();
        def.usage = if random.chance(30) { Usage::Required } else { Usage::Situational };
        def.end = random.chance(40).then(|| id(random));
        def.control = random.chance(50).then(|| Control {
            opener: place(random),
            closer: place(random),
            count_element: place(random),
            count: if random.chance(50) { Count::Segments } else { Count::Children },
        });
    }
    for at in 0..tables {
        let table = table(random, at, tables, loops, &job);
        job.spec.tables.push(table);
    }
    job.plan = plans(random, &job.spec);
    let planned = length(random, loops);
    while job.plan.len() < planned {
        let instances = instances(random, &job.spec.tables, &[]);
        job.plan.push(loop_plan(random, &Loop::default(), instances, &[], tables));
    }
    job.plan.truncate(planned);
    for at in 0..length(random, loops) {
        let segments = job.plan.get(at).map_or(0, |plan| plan.segments.len());
        job.layout.order.push(order(random, job.spec.loops.get(at), segments));
    }
    for at in 0..length(random, loops) {
        let segments = job.plan.get(at).map_or(0, |plan| plan.segments.len());
        let flags = length(random, segments);
        job.layout.forced.push((0..flags).map(|_| random.chance(40)).collect());
    }
    for _ in 0..length(random, loops) {
        let columns = (0..random.below(3)).map(|_| mostly(random, 4));
        job.layout.group_columns.push(columns.collect());
    }
    for _ in 0..length(random, loops) {
        job.layout.depth.push(random.chance(70).then(|| mostly(random, 4)));
    }
    for _ in 0..length(random, tables) {
        job.layout.capacity.push(*random.pick(&[0, 1, 1, 2, 3, 6, 255]));
    }
    let given = length(random, tables).min(check::TABLES);
    if given > tables && tables > 0 && random.chance(70) {
        // A table that the spec lacks is referred to.
        let table = &mut job.spec.tables[random.index(tables)];
        table.ancestors.push(tables as u32);
        if random.chance(40) {
            table.parent = Some(tables as u32);
        }
    }
    let shapes: Vec<Shape> = (0..given)
        .map(|_| Shape {
            rows: (1 + random.index(5)).min(random.index(12)),
            kinds: (0..(2 + random.below(3)).min(random.below(20))).map(|_| Kind::any(random)).collect(),
        })
        .collect();
    rows::fill(random, &mut job, &shapes, mood);
    for (at, table) in job.data.iter_mut().enumerate() {
        if random.chance(5) {
            table.rows += random.number(4);
        }
        if let Some(def) = job.spec.tables.get_mut(at) {
            def.columns = if random.chance(90) { table.columns.len() as u32 } else { random.number(33) };
        }
    }
    job
}

fn table(random: &mut Random, at: usize, tables: usize, loops: usize, job: &Job) -> Table {
    let segment = random.chance(30);
    let mut table = Table { segment, ..Table::default() };
    if at > 0 && random.chance(65) {
        let parent = if random.chance(85) { random.number(at) } else { mostly(random, tables) };
        table.parent = Some(parent);
        if let Some(above) = job.spec.tables.get(parent as usize) {
            table.ancestors = above.ancestors.clone();
        }
        table.ancestors.push(parent);
    }
    if segment && random.chance(70) {
        table.ancestors = (0..tables as u32).filter(|_| random.chance(60)).collect();
    }
    if random.chance(15) {
        for _ in 0..=random.below(3) {
            let at = random.index(table.ancestors.len() + 1);
            let ancestor = mostly(random, tables);
            table.ancestors.insert(at, ancestor);
        }
    }
    if random.chance(40) || segment && random.chance(50) {
        let step = *random.pick(&[0, 1, 2, 3, 3, 255]);
        table.repeat = Some(Repeat { from: place(random), step });
    }
    if segment {
        table.loops = (0..loops as u32).filter(|_| random.chance(60)).collect();
        if random.chance(20) {
            random.shuffle(&mut table.loops);
        }
    }
    for _ in 0..random.below(2) {
        table.loops.push(random.number(loops));
    }
    table
}
