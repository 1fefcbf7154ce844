//! Small jobs, numbered: every combination of a few choices.

use job::*;

/// Takes choices off a number.
struct Choices(u64);

impl Choices {
    fn next(&mut self, count: u64) -> u64 {
        let choice = self.0 % count;
        self.0 /= count;
        choice
    }

    fn of<'a, T>(&mut self, items: &'a [T]) -> &'a T {
        &items[self.next(items.len() as u64) as usize]
    }
}

/// How many jobs each family has.
pub const JOINING: u64 = (3 * 3 * 4) * (3 * 3 * 4) * 2 * 4 * 4;
pub const NESTING: u64 = 6 * 7 * 2 * 2 * 4 * 3 * 9;
pub const REPEATING: u64 = 5 * 4 * 3 * 2 * 3 * 3 * 2;
pub const ENVELOPES: u64 = 5 * 3 * 3 * 3 * 2 * 2 * 6 * 3;
/// How many there are in all.
pub const COUNT: u64 = JOINING + NESTING + REPEATING + ENVELOPES;

/// The job of a number below [`COUNT`].
pub fn small(number: u64) -> Job {
    if number < JOINING {
        return joining(Choices(number));
    }
    let number = number - JOINING;
    if number < NESTING {
        return nesting(Choices(number));
    }
    let number = number - NESTING;
    if number < REPEATING {
        return repeating(Choices(number));
    }
    envelopes(Choices(number - REPEATING))
}

/// Two parts of one row segment, at any places.
fn joining(mut choices: Choices) -> Job {
    let mut element = || ElementPlan {
        element: choices.next(3) as u32,
        component: *choices.of(&[None, Some(1), Some(2)]),
        value: choices
            .of(&[Value::Column(0), Value::Column(1), Value::Code(vec![]), Value::Code(b"X".to_vec())])
            .clone(),
    };
    let elements = vec![element(), element()];
    let forced = choices.next(2) == 1;
    let cells = [None, Some(&b""[..]), Some(b"A"), Some(b"*")];
    let columns = (0..2).map(|_| Some(Column::binary(&[*choices.of(&cells)]))).collect();
    let mut job = one_loop(b"SVC", Instances::Rows(0), vec![(Source::Row(0), elements)]);
    job.layout.forced[0][0] = forced;
    job.spec.tables = vec![Table { columns: 2, loops: vec![0], ..Table::default() }];
    job.layout.capacity = vec![1];
    job.data = vec![TableData { rows: 1, columns, ..TableData::default() }];
    job
}

fn one_loop(trigger: &[u8], instances: Instances, planned: Vec<(Source, Vec<ElementPlan>)>) -> Job {
    let mut job = Job::default();
    job.spec.loops = vec![Loop { trigger: trigger.to_vec(), ..Loop::default() }];
    job.spec.loops[0].occurrences = vec![trigger.to_vec(); planned.len()];
    job.spec.roots = vec![0];
    job.layout.order = vec![(0..planned.len() as u32).map(Item::Segment).collect()];
    job.layout.forced = vec![vec![true; planned.len()]];
    job.layout.group_columns = vec![vec![]];
    job.layout.depth = vec![None];
    let segments = planned.into_iter().enumerate();
    let segments =
        segments.map(|(at, (source, elements))| SegmentPlan { occurrence: at as u32, source, elements });
    job.plan = vec![LoopPlan { instances, segments: segments.collect() }];
    job
}

fn column(element: u32, column: u32) -> ElementPlan {
    ElementPlan { element, component: None, value: Value::Column(column) }
}

/// Two loops, one below the other, and two tables.
fn nesting(mut choices: Choices) -> Job {
    let outer = *choices.of(&[
        Instances::Rows(0),
        Instances::Groups(0),
        Instances::Inside(0),
        Instances::Implied,
        Instances::Envelope,
        Instances::Rows(2),
    ]);
    let inner = *choices.of(&[
        Instances::Rows(0),
        Instances::Rows(1),
        Instances::Groups(1),
        Instances::Groups(0),
        Instances::Inside(0),
        Instances::Inside(1),
        Instances::Implied,
    ]);
    let parent = *choices.of(&[None, Some(0)]);
    let usage = *choices.of(&[Usage::Situational, Usage::Required]);
    let keys = *choices.of(&[&[][..], &[Some(1)], &[Some(1), Some(2)], &[Some(1), Some(1)]]);
    let cells = *choices.of(&[[None, None], [Some("A"), None], [Some("A"), Some("A")]]);
    let refs = [None, Some(1), Some(2)];
    let refs = [*choices.of(&refs), *choices.of(&refs)];
    let mut job = one_loop(b"CLP", outer, vec![(Source::Row(0), vec![column(1, 0)])]);
    let below = one_loop(
        b"SVC",
        inner,
        vec![(Source::Row(0), vec![column(1, 0)]), (Source::Row(1), vec![column(1, 0)])],
    );
    job.spec.loops.extend(below.spec.loops);
    job.spec.loops[1].parent = Some(0);
    job.spec.loops[1].usage = usage;
    job.spec.loops[0].children = vec![1];
    job.plan.extend(below.plan);
    job.layout.order = vec![vec![Item::Segment(0), Item::Loop(1)], vec![Item::Segment(0), Item::Segment(1)]];
    job.layout.forced = vec![vec![false], vec![false, true]];
    job.layout.group_columns = vec![vec![0], vec![0]];
    job.layout.depth = vec![None, None];
    job.layout.capacity = vec![1, 1];
    job.spec.tables = vec![
        Table { columns: 1, loops: vec![0], ..Table::default() },
        Table { columns: 1, loops: vec![1], parent, ancestors: vec![0], ..Table::default() },
    ];
    job.data = vec![
        TableData {
            rows: keys.len() as u32,
            row: Some(Column::int64(keys, 0)),
            columns: vec![Some(Column::binary(&cells[..keys.len()]))],
            ..TableData::default()
        },
        TableData {
            rows: 2,
            refs: vec![(0, Some(Column::int64(&refs, 0)))],
            columns: vec![Some(Column::binary(&[Some("B"), cells[1]]))],
            ..TableData::default()
        },
    ];
    job
}

/// Three rows of a repeat table under one loop.
fn repeating(mut choices: Choices) -> Job {
    let segment = match choices.next(5) {
        0 => None,
        1 => Some(Column::int64(&[Some(0), Some(0), Some(0)], 0)),
        2 => Some(Column::int64(&[Some(0), Some(0), Some(1)], 0)),
        3 => Some(Column::int64(&[None, Some(0), Some(0)], 0)),
        _ => Some(Column::int64(&[None, None], 0)),
    };
    let capacity = choices.next(4) as u32;
    let step = choices.next(3) as u32;
    let group = 1 + choices.next(2) as u32;
    let place = 1 + choices.next(3) as u32;
    let refs = *choices.of(&[[1, 1, 1], [1, 2, 1], [2, 1, 1]]);
    let alike = choices.next(2) == 0;
    let elements =
        vec![ElementPlan { element: group, component: None, value: Value::Group(0) }, column(place, 1)];
    let mut job = one_loop(b"CAS", Instances::Rows(0), vec![(Source::Repeat(1), elements)]);
    job.spec.tables = vec![
        Table { loops: vec![0], ..Table::default() },
        Table {
            loops: vec![0],
            segment: true,
            repeat: Some(Repeat { from: group, step }),
            columns: 2,
            ancestors: vec![0],
            ..Table::default()
        },
    ];
    job.layout.capacity = vec![1, capacity];
    let refs = refs.map(Some);
    job.data = vec![
        TableData { rows: 2, row: Some(Column::int64(&[Some(1), Some(2)], 0)), ..TableData::default() },
        TableData {
            rows: 3,
            segment,
            refs: vec![(0, Some(Column::int64(&refs, 0)))],
            columns: vec![
                Some(Column::binary(&[Some("a"), None, Some("c")])),
                Some(Column::binary(&[Some("X"), Some("X"), if alike { Some("X") } else { None }])),
            ],
            ..TableData::default()
        },
    ];
    job
}

/// An envelope loop's trigger and closer.
fn envelopes(mut choices: Choices) -> Job {
    let depth = *choices.of(&[None, Some(0), Some(1), Some(2), Some(3)]);
    let opener = *choices.of(&[0, 5, 13]);
    let closer = *choices.of(&[0, 1, 2]);
    let count_element = *choices.of(&[0, 1, 2]);
    let end = *choices.of(&[None, Some(b"IEA")]);
    let count = *choices.of(&[Count::Segments, Count::Children]);
    let (kind, min, max) = *choices.of(&[
        (Kind::An, None, None),
        (Kind::An, Some(4), Some(4)),
        (Kind::N(0), Some(9), Some(9)),
        (Kind::R(2), Some(9), Some(9)),
        (Kind::Dt, None, Some(6)),
        (Kind::N(2), Some(6), None),
    ]);
    let codes: Vec<Vec<u8>> =
        choices.of(&[vec![], vec![b"00".to_vec()], vec![b"*".to_vec(), b"X".to_vec()]]).clone();
    let mut job = one_loop(b"ISA", Instances::Envelope, vec![(Source::Envelope, vec![])]);
    job.spec.loops[0].end = end.map(|end| end.to_vec());
    job.spec.loops[0].control = Some(Control { opener, closer, count_element, count });
    job.layout.depth = vec![depth];
    let element = |at| (at, ElementDef { kind, min, max, codes: codes.clone(), ..ElementDef::default() });
    let elements = [0, 1, 2, 4, 5, 8, 9, 10, 11, 13, 15, 16].map(element).to_vec();
    job.spec.segments = Map(vec![(b"ISA".to_vec(), SegmentDef { elements: Map(elements) })]);
    job.spec.version = Some(Version { segment: b"ISA".to_vec(), element: 8, value: b"005010".to_vec() });
    job.envelope.repetition = Some(b'^');
    job.envelope.date = 20_000;
    job.envelope.time = 43_261;
    job
}
