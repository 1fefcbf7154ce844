//! Rows of a job's tables: keys, references and cells that fit its spec, or almost.

use crate::cells::{self, Kind, Mood};
use crate::random::Random;
use job::{Column, Instances, Job, TableData};

/// What a table's rows are made of.
pub struct Shape {
    /// At most so many; none where they would have nothing to hang on and are to be plausible.
    pub rows: usize,
    pub kinds: Vec<Kind>,
}

/// What the rows of a table refer to, and are referred to by.
#[derive(Clone, Default)]
struct Keys {
    keys: Vec<i64>,
    /// By ancestor: the reference of each row.
    refs: Vec<(u32, Vec<Option<i64>>)>,
    /// By row: the rows it stands below, outermost first, then itself.
    paths: Vec<Vec<usize>>,
}

impl Keys {
    fn reference(&self, ancestor: u32, row: usize) -> Option<i64> {
        let (_, refs) = self.refs.iter().find(|(table, _)| *table == ancestor)?;
        refs.get(row).copied().flatten()
    }
}

/// Fills a job's data, one shape a table.
pub fn fill(random: &mut Random, job: &mut Job, shapes: &[Shape], mood: Mood) {
    let tables = shapes.len();
    let mut known: Vec<Option<Keys>> = vec![None; tables];
    let mut order: Vec<usize> = Vec::new();
    // Parents first, as far as there is such an order; repeat tables last.
    for _ in 0..=tables {
        for table in 0..tables {
            let def = job.spec.tables.get(table);
            let waits = def.is_some_and(|def| {
                def.segment
                    || def.parent.is_some_and(|parent| {
                        (parent as usize) < tables && !order.contains(&(parent as usize))
                    })
            });
            if !waits && !order.contains(&table) {
                order.push(table);
            }
        }
    }
    order.extend((0..tables).filter(|table| !order.contains(table)).collect::<Vec<_>>());
    for table in order {
        let keys = keys(random, job, table, shapes[table].rows, &known, mood);
        known[table] = Some(keys);
    }
    job.data = shapes
        .iter()
        .zip(known)
        .map(|(shape, keys)| table_data(random, job, &shape.kinds, &keys.unwrap_or_default(), mood))
        .collect();
}

/// The tables whose rows a table's rows may hang on.
fn owners(job: &Job, table: usize) -> Vec<u32> {
    let Some(def) = job.spec.tables.get(table) else {
        return Vec::new();
    };
    if !def.segment {
        return def.parent.into_iter().collect();
    }
    let owner = |&at: &u32| match job.plan.get(at as usize)?.instances {
        Instances::Rows(owner) => Some(owner),
        _ => None,
    };
    def.loops.iter().filter_map(owner).collect()
}

fn keys(
    random: &mut Random,
    job: &Job,
    table: usize,
    rows: usize,
    known: &[Option<Keys>],
    mood: Mood,
) -> Keys {
    let above = |owner: u32| known.get(owner as usize).and_then(Option::as_ref);
    let wanted = owners(job, table);
    let held: Vec<u32> = wanted
        .iter()
        .copied()
        .filter(|&owner| above(owner).is_some_and(|keys| !keys.keys.is_empty()))
        .collect();
    let orphans = !wanted.is_empty() && held.is_empty();
    let rows = if orphans && mood == Mood::Plausible { 0 } else { rows };
    let start = random.between(-3, 100);
    let mut keys: Vec<i64> = (0..rows as i64).map(|row| start + row).collect();
    if random.chance(20) {
        random.shuffle(&mut keys);
    }
    if mood == Mood::Hostile {
        for row in 0..rows {
            if random.chance(10) {
                keys[row] = match random.below(4) {
                    0 => i64::MIN,
                    1 => i64::MAX,
                    _ => keys[random.index(rows)],
                };
            }
        }
    }
    let ancestors = job.spec.tables.get(table).map_or(&[][..], |def| &def.ancestors);
    let mut targets: Vec<u32> = ancestors.iter().chain(&wanted).copied().collect();
    targets.sort_unstable();
    targets.dedup();
    let mut refs: Vec<(u32, Vec<Option<i64>>)> = targets.iter().map(|&at| (at, vec![None; rows])).collect();
    // The owner's row that each row hangs on, in the order of the walk where rows are to be in order.
    let mut places: Vec<(Vec<usize>, u32, usize)> = Vec::new();
    if !held.is_empty() {
        for _ in 0..rows {
            let owner = *random.pick(&held);
            let keys = above(owner).expect("an owner with rows");
            let at = random.index(keys.keys.len());
            places.push((keys.paths[at].clone(), owner, at));
        }
    }
    if mood == Mood::Plausible || random.chance(50) {
        places.sort();
    }
    for (row, (_, owner, at)) in places.iter().enumerate() {
        let keys = above(*owner).expect("an owner with rows");
        for (target, values) in &mut refs {
            values[row] = if target == owner { Some(keys.keys[*at]) } else { keys.reference(*target, *at) };
        }
    }
    let mut paths: Vec<Vec<usize>> = places.into_iter().map(|(path, _, _)| path).collect();
    paths.resize(rows, Vec::new());
    for (row, path) in paths.iter_mut().enumerate() {
        path.push(row);
    }
    if mood == Mood::Hostile {
        for (target, values) in &mut refs {
            for value in values.iter_mut() {
                if random.chance(12) {
                    let keys = known.get(*target as usize).and_then(Option::as_ref).map(|known| &known.keys);
                    *value = match (random.below(4), keys) {
                        (0, _) => None,
                        (1, _) => Some(random.between(-5, 200)),
                        (_, Some(keys)) if !keys.is_empty() => Some(*random.pick(keys)),
                        _ => Some(i64::MAX),
                    };
                }
            }
        }
    }
    Keys { keys, refs, paths }
}

fn table_data(random: &mut Random, job: &Job, kinds: &[Kind], keys: &Keys, mood: Mood) -> TableData {
    let rows = keys.keys.len();
    let some: Vec<Option<i64>> = keys.keys.iter().map(|&key| Some(key)).collect();
    let mut data = TableData {
        rows: rows as u32,
        row: Some(Column::int64(&some, 0)),
        segment: None,
        refs: Vec::new(),
        columns: Vec::new(),
    };
    for (table, values) in &keys.refs {
        data.refs.push((*table, Some(Column::int64(values, 0))));
    }
    if random.chance(60) {
        let mut at = 0;
        let numbers: Vec<Option<i64>> = (0..rows)
            .map(|_| {
                at += random.between(0, 1);
                (!random.chance(15)).then_some(at)
            })
            .collect();
        data.segment = Some(Column::int64(&numbers, 0));
    }
    for &kind in kinds {
        let cell_mood =
            if mood == Mood::Hostile && random.chance(60) { Mood::Hostile } else { Mood::Plausible };
        data.columns.push(Some(cells::column(random, &job.envelope, kind, rows, cell_mood)));
    }
    if mood == Mood::Hostile {
        spoil(random, job, &mut data);
    }
    data
}

/// Columns that are absent, of another kind, bent or in another order.
fn spoil(random: &mut Random, job: &Job, data: &mut TableData) {
    let rows = data.rows as usize;
    if random.chance(10) {
        data.row = match random.below(3) {
            0 => None,
            1 => Some(cells::column(random, &job.envelope, Kind::Text, rows, Mood::Plausible)),
            _ => Some(cells::column(random, &job.envelope, Kind::Int(0), rows, Mood::Hostile)),
        };
    }
    if random.chance(10) {
        let kind = Kind::any(random);
        data.segment = Some(cells::column(random, &job.envelope, kind, rows, Mood::Hostile));
    }
    if random.chance(10) {
        // Nulls, then rows without an answer.
        data.segment = Some(Column::int64(&vec![None; random.index(rows + 1)], 0));
    }
    if random.chance(10) && !data.refs.is_empty() {
        let at = random.index(data.refs.len());
        match random.below(4) {
            0 => data.refs[at].1 = None,
            1 => {
                let kind = Kind::any(random);
                data.refs[at].1 = Some(cells::column(random, &job.envelope, kind, rows, Mood::Plausible));
            }
            2 => {
                let again = (data.refs[at].0, None);
                data.refs.insert(at, again);
            }
            _ => {
                data.refs.remove(at);
            }
        }
    }
    for column in &mut data.columns {
        if random.chance(4) {
            *column = None;
        }
    }
    let named = data
        .row
        .iter_mut()
        .chain(&mut data.segment)
        .chain(data.refs.iter_mut().filter_map(|(_, column)| column.as_mut()));
    for column in named.chain(data.columns.iter_mut().flatten()) {
        if random.chance(6) {
            cells::bend(random, column);
        }
    }
}
