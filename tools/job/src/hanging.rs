//! Which row hangs on which (docs/RULES.md, "Nesting").

use crate::cell::Cell;
use crate::*;
use std::collections::HashMap;

/// A row: its table and its number there.
pub type Row = (u32, usize);

/// Where every row hangs.
pub struct Hanging {
    /// By table and row: the row it hangs on.
    above: Vec<Vec<Option<Row>>>,
    /// By the row they hang on and their table: rows in rising order.
    below: HashMap<(Row, u32), Vec<usize>>,
}

impl Hanging {
    pub fn of(job: &Job) -> Hanging {
        let mut hanging = Hanging { above: Vec::new(), below: HashMap::new() };
        for (table, data) in (0..).zip(&job.data) {
            let rows: Vec<Option<Row>> = (0..data.rows as usize).map(|row| hook(job, table, row)).collect();
            for (row, above) in rows.iter().enumerate() {
                if let Some(above) = above {
                    hanging.below.entry((*above, table)).or_default().push(row);
                }
            }
            hanging.above.push(rows);
        }
        hanging
    }

    /// The rows of a table that hang on a row.
    pub fn below(&self, above: Row, table: u32) -> &[usize] {
        self.below.get(&(above, table)).map_or(&[], Vec::as_slice)
    }

    /// The row, or a row above it, lacks its parent.
    pub fn adrift(&self, job: &Job, row: Row) -> bool {
        let mut at = row;
        for _ in 0..=job.spec.tables.len() {
            let def = &job.spec.tables[at.0 as usize];
            if !def.segment && def.parent.is_none() {
                return false;
            }
            match self.above[at.0 as usize][at.1] {
                Some(above) => at = above,
                None => return true,
            }
        }
        true
    }
}

/// The row that a row hangs on: in its table's parent, or for a repeat row in the anchor that it picks.
fn hook(job: &Job, table: u32, row: usize) -> Option<Row> {
    let def = job.spec.tables.get(table as usize)?;
    let owner = if def.segment {
        anchors(job, def).into_iter().find(|&owner| reference(job, table, row, owner).is_some())?
    } else {
        def.parent?
    };
    let key = reference(job, table, row, owner)?;
    first_with(job, owner, key).map(|above| (owner, above))
}

/// The tables whose row loops a repeat table lists: the deepest loop first, equal depths in list order.
fn anchors(job: &Job, def: &Table) -> Vec<u32> {
    let mut loops: Vec<(usize, u32)> = Vec::new();
    for &number in &def.loops {
        if let Some(Instances::Rows(owner)) = job.plan.get(number as usize).map(|plan| plan.instances) {
            loops.push((complete::above(job, number).len(), owner));
        }
    }
    loops.sort_by_key(|(depth, _)| usize::MAX - depth);
    loops.into_iter().map(|(_, owner)| owner).collect()
}

/// The reference of a row to a table, where it has one.
fn reference(job: &Job, table: u32, row: usize, to: u32) -> Option<i64> {
    let (_, column) = job.data[table as usize].refs.iter().find(|(table, _)| *table == to)?;
    match column.as_ref()?.answer(row)? {
        Cell::Integer(value) => Some(value),
        _ => None,
    }
}

/// The first row of a table with that key. Only tables in some ancestor list have keys.
fn first_with(job: &Job, table: u32, key: i64) -> Option<usize> {
    let data = job.data.get(table as usize)?;
    if !job.spec.tables.iter().any(|def| def.ancestors.contains(&table)) {
        return None;
    }
    (0..data.rows as usize).find(|&row| match data.row.as_ref().and_then(|column| column.answer(row)) {
        Some(Cell::Integer(value)) => value == key,
        // A key that isn't Int64 is the row's own number.
        _ => row as i64 == key,
    })
}
