//! Random complete plans (docs/RULES.md, "A complete plan"), by construction.

use crate::cells::{self, Kind, Mood};
use crate::random::Random;
use crate::remit;
use crate::rows::{self, Shape};
use job::*;

/// Elements of an envelope trigger: as X12 has them, or a few of them.
fn trigger_def(random: &mut Random, depth: u32) -> SegmentDef {
    let last = [16, 8, 2, 4][depth.min(3) as usize];
    let whole = random.chance(60);
    let mut elements = Vec::new();
    for at in 1..=last {
        if !whole && random.chance(40) {
            continue;
        }
        let (mut kind, mut min, mut max) = (job::Kind::An, None, None);
        if random.chance(70) {
            let width = *random.pick(&[1, 2, 4, 6, 8, 9, 10, 15]);
            (min, max) = (Some(width), Some(if random.chance(70) { width } else { width + 5 }));
        }
        if random.chance(20) {
            kind = *random.pick(&[job::Kind::N(0), job::Kind::Id, job::Kind::Dt, job::Kind::R(2)]);
        }
        let codes = if random.chance(30) {
            vec![random.pick(&[&b"00"[..], b"HP", b"X", b"00501"]).to_vec()]
        } else {
            Vec::new()
        };
        elements.push((at, ElementDef { kind, min, max, components: Map::default(), codes }));
    }
    SegmentDef { elements: Map(elements) }
}

/// Elements of a row segment: dates and times with a max matter.
fn row_def(random: &mut Random) -> SegmentDef {
    let mut elements = Vec::new();
    for at in 1..=8 {
        if random.chance(40) {
            let max = random.chance(60).then(|| *random.pick(&[4, 5, 6, 7, 8, 35]));
            let mut components = Map::default();
            for component in 1..=3 {
                if random.chance(40) {
                    let max = random.chance(50).then(|| *random.pick(&[4, 6, 8]));
                    components.0.push((component, ComponentDef { max, ..ComponentDef::default() }));
                }
            }
            elements.push((at, ElementDef { max, components, ..ElementDef::default() }));
        }
    }
    SegmentDef { elements: Map(elements) }
}

/// A plan that is being put together.
struct Builder {
    job: Job,
    /// The row loop of each row table.
    row_loops: Vec<u32>,
    columns: Vec<usize>,
}

impl Builder {
    fn add(&mut self, parent: Option<u32>, trigger: &[u8], instances: Instances) -> u32 {
        let number = self.job.spec.loops.len() as u32;
        self.job.spec.loops.push(Loop { parent, trigger: trigger.to_vec(), ..Loop::default() });
        match parent {
            Some(parent) => self.job.spec.loops[parent as usize].children.push(number),
            None => self.job.spec.roots.push(number),
        }
        self.job.plan.push(LoopPlan { instances, segments: Vec::new() });
        number
    }

    fn plan(&mut self, number: u32, id: &[u8], source: Source, elements: Vec<ElementPlan>) {
        let occurrences = &mut self.job.spec.loops[number as usize].occurrences;
        occurrences.push(id.to_vec());
        let occurrence = occurrences.len() as u32 - 1;
        self.job.plan[number as usize].segments.push(SegmentPlan { occurrence, source, elements });
    }

    /// A column or code.
    fn value(&self, random: &mut Random, table: u32) -> Value {
        let columns = self.columns[table as usize];
        if columns == 0 || random.chance(20) {
            Value::Code(random.pick(&[&b""[..], b"HC", b"1", b"QC"]).to_vec())
        } else {
            Value::Column(random.number(columns))
        }
    }

    /// Rising places, with or without components.
    fn row_elements(&self, random: &mut Random, table: u32, places: u32) -> Vec<ElementPlan> {
        let mut elements = Vec::new();
        for element in 1..=places {
            if random.chance(40) {
                continue;
            }
            if random.chance(25) {
                for component in 1..=1 + random.number(3) {
                    if random.chance(60) {
                        let value = self.value(random, table);
                        elements.push(ElementPlan { element, component: Some(component), value });
                    }
                }
            } else {
                elements.push(ElementPlan { element, component: None, value: self.value(random, table) });
            }
        }
        elements
    }

    fn control(&mut self, random: &mut Random, number: u32, end: &[u8]) {
        let mut places = [1, 2, 3, 4];
        random.shuffle(&mut places);
        let def = &mut self.job.spec.loops[number as usize];
        def.control = Some(Control {
            opener: *random.pick(&[1, 2, 6, 13]),
            closer: places[0],
            count_element: places[1],
            count: if random.chance(50) { Count::Segments } else { Count::Children },
        });
        def.end = (!random.chance(10)).then(|| end.to_vec());
    }
}

const ROW_IDS: [&[u8]; 6] = [b"BPR", b"CLP", b"SVC", b"NM1", b"REF", b"DTM"];

/// A job with a complete plan.
pub fn complete(random: &mut Random, mood: Mood) -> Job {
    let row_tables = 1 + random.index(4);
    let repeat_tables = random.index(3);
    let tables = row_tables + repeat_tables;
    let mut build = Builder {
        job: Job { envelope: remit::envelope(random, mood), ..Job::default() },
        row_loops: Vec::new(),
        columns: (0..tables).map(|_| random.index(5)).collect(),
    };
    let mut top = None;
    let envelopes: [(&[u8], &[u8]); 2] = [(b"ISA", b"IEA"), (b"GS", b"GE")];
    for (trigger, end) in envelopes.into_iter().take(random.index(3)) {
        let number = build.add(top, trigger, Instances::Envelope);
        build.plan(number, trigger, Source::Envelope, Vec::new());
        build.control(random, number, end);
        top = Some(number);
    }
    for table in 0..row_tables as u32 {
        row_table(random, &mut build, table, top);
    }
    for table in row_tables as u32..tables as u32 {
        repeat_table(random, &mut build, table);
    }
    beside(random, &mut build, row_tables);
    finish(random, &mut build);
    let shapes: Vec<Shape> = build
        .columns
        .iter()
        .map(|&columns| Shape {
            rows: random.index(7),
            kinds: (0..columns).map(|_| Kind::any(random)).collect(),
        })
        .collect();
    let mut job = build.job;
    rows::fill(random, &mut job, &shapes, mood);
    job
}

/// A row table and its row loop, behind loops that may stand between it and its parent's.
fn row_table(random: &mut Random, build: &mut Builder, table: u32, top: Option<u32>) {
    let parent = (table > 0 && random.chance(75)).then(|| random.number(table as usize));
    let mut ancestors = Vec::new();
    let mut above = top;
    if let Some(parent) = parent {
        ancestors = build.job.spec.tables[parent as usize].ancestors.clone();
        ancestors.push(parent);
        above = Some(build.row_loops[parent as usize]);
    }
    for _ in 0..random.below(3) {
        let kind = *random.pick(&[
            Instances::Envelope,
            Instances::Implied,
            Instances::Groups(table),
            Instances::Groups(table),
        ]);
        let number = build.add(above, b"LX", kind);
        if random.chance(70) {
            let elements = build.row_elements(random, table, 3);
            build.plan(number, b"LX", Source::Row(table), elements);
        }
        if random.chance(20) {
            build.plan(number, b"LX", Source::Envelope, Vec::new());
            build.control(random, number, b"LE");
        }
        above = Some(number);
    }
    let id = *random.pick(&ROW_IDS);
    let number = build.add(above, id, Instances::Rows(table));
    if random.chance(30) {
        build.plan(number, id, Source::Envelope, Vec::new());
        build.control(random, number, b"SE");
    }
    for _ in 0..random.below(4) {
        let of = if random.chance(80) || ancestors.is_empty() { table } else { *random.pick(&ancestors) };
        let elements = build.row_elements(random, of, 8);
        let id = *random.pick(&ROW_IDS);
        build.plan(number, id, Source::Row(of), elements);
    }
    build.row_loops.push(number);
    build.job.spec.tables.push(Table { parent, ancestors, loops: vec![number], ..Table::default() });
}

/// A table anchored on a segment, with one repeat segment in each of its row loops.
fn repeat_table(random: &mut Random, build: &mut Builder, table: u32) {
    let mut loops: Vec<u32> = build.row_loops.iter().copied().filter(|_| random.chance(60)).collect();
    random.shuffle(&mut loops);
    let columns = build.columns[table as usize];
    let step = 1 + random.number(3);
    let from = 1 + random.number(4);
    for &number in &loops {
        let mut elements = build.row_elements(random, table, from - 1);
        for offset in 0..step {
            if columns > 0 && random.chance(80) {
                let value = Value::Group(random.number(columns));
                let component = random.chance(10).then_some(1 + random.number(2));
                elements.push(ElementPlan { element: from + offset, component, value });
            }
        }
        if random.chance(20) {
            random.shuffle(&mut elements);
        }
        build.plan(number, b"CAS", Source::Repeat(table), elements);
    }
    let ancestors = (0..build.row_loops.len() as u32).filter(|_| random.chance(90)).collect();
    let repeat = Some(Repeat { from, step });
    build.job.spec.tables.push(Table { segment: true, repeat, loops, ancestors, ..Table::default() });
}

/// Loops beside the row loops: inside a row, absent, or around nothing.
fn beside(random: &mut Random, build: &mut Builder, row_tables: usize) {
    for _ in 0..random.below(4) {
        let table = random.number(row_tables);
        let mut above = build.row_loops[table as usize];
        for _ in 0..1 + random.below(3) {
            let other = random.number(row_tables);
            let kind = match random.below(8) {
                0 => Instances::Absent,
                1 => Instances::Implied,
                2 => Instances::Envelope,
                3 => Instances::Inside(other),
                _ => Instances::Inside(table),
            };
            above = build.add(Some(above), b"N1", kind);
            for _ in 0..random.below(3) {
                let of = if random.chance(80) { table } else { other };
                let elements = build.row_elements(random, of, 5);
                let id = *random.pick(&[&b"N1"[..], b"N3", b"N4"]);
                build.plan(above, id, Source::Row(of), elements);
            }
        }
    }
}

/// Orders, flags, depths, definitions.
fn finish(random: &mut Random, build: &mut Builder) {
    let job = &mut build.job;
    for (number, plan) in job.plan.iter().enumerate() {
        let def = &job.spec.loops[number];
        let mut order: Vec<Item> = (0..plan.segments.len() as u32).map(Item::Segment).collect();
        order.extend(def.children.iter().map(|&child| Item::Loop(child)));
        if random.chance(30) {
            random.shuffle(&mut order);
        }
        job.layout.order.push(order);
        job.layout.forced.push(plan.segments.iter().map(|_| random.chance(40)).collect());
        let columns = match plan.instances {
            Instances::Groups(table) if build.columns[table as usize] > 0 => {
                (0..random.below(3)).map(|_| random.number(build.columns[table as usize])).collect()
            }
            _ => Vec::new(),
        };
        job.layout.group_columns.push(columns);
    }
    for number in 0..job.spec.loops.len() {
        let mut depth = 0;
        let mut above = job.spec.loops[number].parent;
        while let Some(at) = above {
            depth += u32::from(job.spec.loops[at as usize].control.is_some());
            above = job.spec.loops[at as usize].parent;
        }
        job.layout.depth.push(job.spec.loops[number].control.map(|_| depth));
        job.spec.loops[number].usage = if random.chance(40) { Usage::Required } else { Usage::Situational };
    }
    for (at, table) in job.spec.tables.iter_mut().enumerate() {
        table.columns = build.columns[at] as u32;
        job.layout.capacity.push(if table.segment { random.number(7) } else { 1 });
    }
    let mut defs: Vec<(Vec<u8>, SegmentDef)> = Vec::new();
    for (number, def) in job.spec.loops.iter().enumerate() {
        let ids = def.occurrences.iter().chain([&def.trigger]);
        for id in ids {
            if random.chance(80) && defs.iter().all(|(other, _)| other != id) {
                let depth = job.layout.depth[number].filter(|_| *id == def.trigger);
                let made = match depth {
                    Some(depth) => trigger_def(random, depth),
                    None => row_def(random),
                };
                defs.push((id.clone(), made));
            }
        }
    }
    defs.sort_by(|a, b| a.0.cmp(&b.0));
    job.spec.segments = Map(defs);
    if random.chance(50) {
        let value = cells::ascii(random, &Envelope::default(), Mood::Plausible);
        job.spec.version = Some(Version { segment: b"GS".to_vec(), element: 1 + random.number(8), value });
    }
}

/// Breaks one of the conditions of a complete plan, or almost.
pub fn break_plan(random: &mut Random, job: &mut Job) {
    let number = random.index(job.spec.loops.len());
    let table = random.index(job.spec.tables.len());
    let any_table = random.number(job.spec.tables.len() + 1);
    let separator = *random.pick(&[job.envelope.element, job.envelope.component, job.envelope.segment]);
    match random.below(22) {
        0 => job.plan[number].instances = Instances::Rows(any_table),
        1 => job.plan[number].instances = Instances::Groups(any_table),
        2 => job.plan[number].instances = Instances::Inside(any_table),
        3 => job.plan[number].instances = Instances::Implied,
        4 => job.plan[number].instances = Instances::Absent,
        5 => drop_any(random, &mut job.layout.order[number]),
        6 => {
            let item = Item::Segment(random.number(job.plan[number].segments.len() + 1));
            job.layout.order[number].push(item);
        }
        7 => job.plan.push(LoopPlan::default()),
        8 => match random.below(6) {
            0 => job.layout.order.push(Vec::new()),
            1 => job.layout.forced.push(Vec::new()),
            2 => job.layout.group_columns.push(Vec::new()),
            3 => job.layout.depth.push(None),
            4 => job.layout.capacity.push(1),
            _ => job.data.push(TableData::default()),
        },
        9 => job.spec.tables[table].parent = Some(any_table),
        10 => job.spec.tables[table].segment = !job.spec.tables[table].segment,
        11 => job.spec.tables[table].loops.push(number as u32),
        12 => drop_any(random, &mut job.spec.tables[table].loops),
        13 => {
            // One more segment in the plan, its order and its flags.
            let occurrence = random.number(job.spec.loops[number].occurrences.len() + 1);
            let at = job.plan[number].segments.len() as u32;
            let elements = vec![ElementPlan { element: 1, component: None, value: Value::Group(0) }];
            let source = *random.pick(&[Source::Repeat(any_table), Source::Row(any_table), Source::Envelope]);
            job.plan[number].segments.push(SegmentPlan { occurrence, source, elements });
            job.layout.order[number].push(Item::Segment(at));
            job.layout.forced[number].push(true);
        }
        14 => job.layout.capacity[table] = *random.pick(&[0, 1, 2, 255]),
        15 => {
            let step = *random.pick(&[0, 1, 2, 255]);
            job.spec.tables[table].repeat = random.chance(80).then_some(Repeat { from: 1, step });
        }
        16 => {
            if let Some(rule) = &mut job.spec.loops[number].control {
                let place = *random.pick(&[0, 1, rule.closer]);
                *random_place(random, rule) = place;
            }
        }
        17 => {
            if let Some((_, segment)) = job.spec.segments.0.first_mut()
                && let Some((_, element)) = segment.elements.0.last_mut()
            {
                element.codes.push(vec![b'A', separator]);
            }
        }
        18 => {
            let value = vec![separator];
            job.spec.version = Some(Version { segment: b"GS".to_vec(), element: random.number(3), value });
        }
        19 => {
            if let Some((_, segment)) = job.spec.segments.0.first_mut()
                && let Some((at, element)) = segment.elements.0.first_mut()
            {
                match random.below(3) {
                    0 => *at = 0,
                    1 => element.components.0.insert(0, (0, ComponentDef::default())),
                    _ => element.components = Map(vec![(1, ComponentDef::default())]),
                }
            }
        }
        _ => break_element(random, job, separator),
    }
}

fn random_place<'a>(random: &mut Random, rule: &'a mut Control) -> &'a mut u32 {
    match random.below(3) {
        0 => &mut rule.opener,
        1 => &mut rule.closer,
        _ => &mut rule.count_element,
    }
}

fn drop_any<T>(random: &mut Random, list: &mut Vec<T>) {
    if !list.is_empty() {
        list.remove(random.index(list.len()));
    }
}

/// Changes one planned element, or puts one beside it.
fn break_element(random: &mut Random, job: &mut Job, separator: u8) {
    let segments = job.plan.iter_mut().flat_map(|plan| &mut plan.segments);
    let mut segments: Vec<&mut SegmentPlan> =
        segments.filter(|segment| !segment.elements.is_empty()).collect();
    if segments.is_empty() {
        return;
    }
    let at = random.index(segments.len());
    let elements = &mut segments[at].elements;
    let at = random.index(elements.len());
    match random.below(7) {
        0 => elements[at].element = 0,
        1 => elements[at].component = Some(random.number(3)),
        2 => elements[at].element += 1,
        3 => elements.reverse(),
        4 => {
            let again = elements[at].clone();
            elements.insert(at, again);
        }
        5 => elements[at].value = Value::Code(vec![separator]),
        _ => elements[at].value = Value::Group(0),
    }
}
