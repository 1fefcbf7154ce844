//! A complete plan (docs/RULES.md, "A complete plan"), judged on a job that passes refusals 1 to 5. The five
//! conditions are numbered from 1 in their order there: [`NAMES`].
//!
//! Row segments' places rise strictly; every planned element is a
//! place, those of `Group` values in row segments and the lists of `Envelope` segments included; a
//! control rule counts also without `end`; the version's element is no place; that there is one entry a
//! loop is said of the outer lists; occurrence numbers exist for `Envelope` segments too; an envelope field
//! that gives a separator is planned at no component where neither the definition of that element
//! nor the segment's own list has one.

use crate::*;
use std::collections::BTreeSet;

/// The conditions by their headings in docs/RULES.md.
pub const NAMES: [&str; 5] =
    ["row loops", "entries and orders", "above a row loop", "repeat loops", "places"];

/// That a condition doesn't hold, in words.
pub fn broken(condition: u8) -> String {
    format!("not complete: {}", NAMES[usize::from(condition) - 1])
}

/// The first of the five conditions that doesn't hold, if any.
pub fn gap(job: &Job) -> Option<u8> {
    (1..=5).find(|&condition| !holds(job, condition))
}

/// Whether a condition holds; 3, 4 and 5 are only asked where 1 and 2 do.
pub fn holds(job: &Job, condition: u8) -> bool {
    match condition {
        1 => tables_named(job),
        2 => lists_agree(job),
        3 => (0..job.spec.tables.len() as u32).all(|table| path_fits(job, table)),
        4 => repeats_fit(job),
        _ => places_start_at_1(job) && segments_fit(job) && separators_stand_alone(job) && codes_free(job),
    }
}

fn is_row_table(job: &Job, table: u32) -> bool {
    job.spec.tables.get(table as usize).is_some_and(|def| !def.segment)
}

/// The loops that give a table's rows.
fn row_loops(job: &Job, table: u32) -> Vec<u32> {
    let loops = 0..job.plan.len() as u32;
    loops.filter(|&number| job.plan[number as usize].instances == Instances::Rows(table)).collect()
}

/// Row loops: each table without repeat segment has one row loop; no other tables are named.
fn tables_named(job: &Job) -> bool {
    let named = job.plan.iter().all(|plan| match plan.instances {
        Instances::Rows(table) | Instances::Groups(table) => is_row_table(job, table),
        _ => true,
    });
    let tables = 0..job.spec.tables.len() as u32;
    named && tables.filter(|&table| is_row_table(job, table)).all(|table| row_loops(job, table).len() == 1)
}

/// Entries and orders: lengths, orders, occurrences, parents.
fn lists_agree(job: &Job) -> bool {
    let (layout, loops, tables) = (&job.layout, job.spec.loops.len(), job.spec.tables.len());
    let by_loop = [
        job.plan.len(),
        layout.order.len(),
        layout.forced.len(),
        layout.group_columns.len(),
        layout.depth.len(),
    ];
    by_loop.iter().all(|&length| length == loops)
        && job.data.len() == tables
        && layout.capacity.len() == tables
        && (0..loops).all(|number| order_complete(job, number))
        && job.spec.loops.iter().zip(&job.plan).all(|(def, plan)| {
            plan.segments.iter().all(|segment| (segment.occurrence as usize) < def.occurrences.len())
        })
        && job.spec.tables.iter().filter_map(|def| def.parent).all(|parent| is_row_table(job, parent))
}

fn order_complete(job: &Job, number: usize) -> bool {
    let segments = (0..job.plan[number].segments.len() as u32).map(Item::Segment);
    let children = job.spec.loops[number].children.iter().map(|&child| Item::Loop(child));
    let wanted: Vec<Item> = segments.chain(children).collect();
    let order = &job.layout.order[number];
    order.len() == wanted.len() && wanted.iter().all(|item| order.contains(item))
}

/// The loops above a loop, nearest first.
pub(crate) fn above(job: &Job, number: u32) -> Vec<u32> {
    let mut all = Vec::new();
    let mut at = job.spec.loops[number as usize].parent;
    while let Some(parent) = at {
        all.push(parent);
        at = job.spec.loops[parent as usize].parent;
    }
    all
}

/// Above a row loop: what stands above the row loop of a table.
fn path_fits(job: &Job, table: u32) -> bool {
    if !is_row_table(job, table) {
        return true;
    }
    let row_loop = row_loops(job, table)[0];
    let path = above(job, row_loop);
    let kind = |number: u32| job.plan[number as usize].instances;
    let only = path.iter().all(|&number| {
        matches!(
            kind(number),
            Instances::Envelope | Instances::Implied | Instances::Rows(_) | Instances::Groups(_)
        )
    });
    let rows: BTreeSet<u32> =
        path.iter().copied().filter(|&number| matches!(kind(number), Instances::Rows(_))).collect();
    let mut parents = BTreeSet::new();
    let mut parent = job.spec.tables[table as usize].parent;
    while let Some(at) = parent {
        if !parents.insert(row_loops(job, at)[0]) {
            break;
        }
        parent = job.spec.tables[at as usize].parent;
    }
    only && rows == parents && (0..path.len()).all(|at| group_fits(job, row_loop, &path, at))
}

/// From a `Groups` loop on a path down to its table's row loop stand only loops that may.
fn group_fits(job: &Job, row_loop: u32, path: &[u32], at: usize) -> bool {
    let kind = |number: u32| job.plan[number as usize].instances;
    let Instances::Groups(table) = kind(path[at]) else {
        return true;
    };
    // Downwards from the loop below it to the row loop the path belongs to.
    let mut below = path[..at].iter().rev().chain([&row_loop]);
    below
        .find(|&&number| {
            !matches!(kind(number), Instances::Envelope | Instances::Implied)
                && kind(number) != Instances::Groups(table)
        })
        .is_some_and(|&number| kind(number) == Instances::Rows(table))
}

/// Repeat loops: one repeat segment in each row loop of a repeat table's list, and no other.
fn repeats_fit(job: &Job) -> bool {
    let due = |number: usize, table: u32| {
        matches!(job.plan[number].instances, Instances::Rows(_))
            && job
                .spec
                .tables
                .get(table as usize)
                .is_some_and(|def| def.segment && def.loops.contains(&(number as u32)))
    };
    let planned = |number: usize, table: u32| {
        let segments = job.plan[number].segments.iter();
        segments.filter(|segment| segment.source == Source::Repeat(table)).count()
    };
    (0..job.plan.len()).all(|number| {
        let tables = 0..job.spec.tables.len() as u32;
        let once = tables.filter(|&table| due(number, table)).all(|table| planned(number, table) == 1);
        let no_other = job.plan[number].segments.iter().all(|segment| match segment.source {
            Source::Repeat(table) => due(number, table),
            _ => true,
        });
        once && no_other
    })
}

/// Places: places start at 1, in plan, maps and control rules; closer and count elements differ.
fn places_start_at_1(job: &Job) -> bool {
    let planned = job.plan.iter().flat_map(|plan| &plan.segments).flat_map(|segment| &segment.elements);
    let maps = job.spec.segments.0.iter().flat_map(|(_, def)| &def.elements.0);
    let mut rules = job.spec.loops.iter().filter_map(|def| def.control);
    planned.into_iter().all(|element| element.element >= 1 && element.component.is_none_or(|at| at >= 1))
        && maps
            .into_iter()
            .all(|(at, def)| *at >= 1 && def.components.0.iter().all(|(component, _)| *component >= 1))
        && rules.all(|rule| {
            rule.opener >= 1
                && rule.closer >= 1
                && rule.count_element >= 1
                && rule.closer != rule.count_element
        })
}

/// Places: row segments' places rise, those of a full chunk don't collide, and no element has both plain
/// and component parts.
fn segments_fit(job: &Job) -> bool {
    job.plan.iter().flat_map(|plan| &plan.segments).all(|segment| {
        let places = places(job, segment);
        let rises = places.is_sorted_by(|a, b| a < b);
        let distinct: BTreeSet<&(u32, Option<u32>)> = places.iter().collect();
        let apart = match segment.source {
            Source::Row(_) => rises,
            Source::Repeat(_) => distinct.len() == places.len(),
            Source::Envelope => true,
        };
        let plain: BTreeSet<u32> =
            places.iter().filter(|(_, component)| component.is_none()).map(|(at, _)| *at).collect();
        apart && places.iter().all(|(at, component)| component.is_none() || !plain.contains(at))
    })
}

/// The places of a planned segment; of a repeat segment those of a full chunk.
fn places(job: &Job, segment: &SegmentPlan) -> Vec<(u32, Option<u32>)> {
    let (mut step, mut capacity) = (0, 1);
    if let Source::Repeat(table) = segment.source {
        let repeat = job.spec.tables.get(table as usize).and_then(|def| def.repeat);
        step = repeat.map_or(0, |repeat| repeat.step);
        capacity = job.layout.capacity.get(table as usize).map_or(1, |&capacity| capacity.max(1));
    }
    let mut all = Vec::new();
    for element in &segment.elements {
        let times = if matches!(element.value, Value::Group(_)) { capacity } else { 1 };
        all.extend((0..times).map(|k| (element.element + k * step, element.component)));
    }
    all
}

/// Places: an envelope field that gives a separator is planned at no component.
fn separators_stand_alone(job: &Job) -> bool {
    (0..job.plan.len()).all(|number| {
        let def = &job.spec.loops[number];
        let triggers = job.plan[number].segments.iter().filter(|segment| segment.source == Source::Envelope);
        let Some(rule) = def.control.filter(|_| job.layout.depth[number].unwrap_or(0) == 0) else {
            return true;
        };
        let elements = job.spec.segments.get(&def.trigger).map_or(&[][..], |segment| &segment.elements.0);
        let gives = |at: u32, element: &ElementDef| {
            at != rule.opener
                && (at == 16 || at == 11 && element.codes.is_empty() && job.envelope.repetition.is_some())
        };
        triggers.into_iter().all(|segment| {
            elements.iter().filter(|(at, element)| gives(*at, element)).all(|(at, element)| {
                let own = segment.elements.iter().filter(|planned| planned.element == *at);
                element.components.0.is_empty() && own.into_iter().all(|planned| planned.component.is_none())
            })
        })
    })
}

/// Places: codes and the version's first value hold no element, component or segment separator.
fn codes_free(job: &Job) -> bool {
    let separators = [job.envelope.element, job.envelope.component, job.envelope.segment];
    let free = |text: &[u8]| !text.iter().any(|byte| separators.contains(byte));
    let planned = job.plan.iter().flat_map(|plan| &plan.segments).flat_map(|segment| &segment.elements);
    let mut codes = planned.filter_map(|element| match &element.value {
        Value::Code(code) => Some(code),
        _ => None,
    });
    codes.all(|code| free(code)) && check::spec_texts(&job.spec).into_iter().all(free)
}
