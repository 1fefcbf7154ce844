//! The due segments of a job, in order, with their planned places and texts, and its stops: nest, walk and skipping
//! as the rules have them (docs/RULES.md, "Due segments").
//!
//! It is meant for jobs with a complete plan. Where the rules leave a thing to the Rust, it follows the list of corners
//! (read off the Rust and tried by running it), not the code of either side:
//!
//! - a loop's instances: `Absent` none, `Envelope` one, `Rows` one a row, `Groups` one a run of neighbours that agree
//!   in the group columns, `Implied` one where a child loop has one, `Inside` one within a row of its table;
//! - the rows of a table in a context are those that hang on the row of its parent, all of them without a parent;
//!   a run cuts them further until the next `Rows` loop;
//! - a chunk of a repeat segment goes on up to its capacity, as long as rows agree with its first one in the `segment`
//!   column's answer and in the planned columns that aren't `Group` values;
//! - a closer is due for each instance with `end` and a control rule; its count is that of the instance's segments with
//!   itself, or of its child instances.

use crate::cell::{Cell, cell};
use crate::fields::{self, Given};
use crate::hanging::{Hanging, Row};
use crate::*;

/// What a text was made of.
#[derive(Debug, Clone, Copy, PartialEq, Eq, PartialOrd, Ord)]
pub enum Made {
    Null,
    Bytes,
    Integer,
    Decimal,
    Date,
    Time,
    NotWritable,
    Code,
    Envelope,
    /// A date or time of the envelope.
    Moment,
    /// A separator, given as a field.
    Separator,
    ControlNumber,
    Count,
}

/// A planned place and its text.
#[derive(Debug, Clone, PartialEq, Eq)]
pub struct Place {
    pub element: u32,
    pub component: Option<u32>,
    pub text: Vec<u8>,
    pub made: Made,
}

/// What kind of segment is due.
#[derive(Debug, Clone, Copy, PartialEq, Eq, PartialOrd, Ord)]
pub enum Sort {
    Trigger,
    Row,
    Repeat,
    Closer,
}

/// A segment that is due.
#[derive(Debug, Clone, PartialEq, Eq)]
pub struct Segment {
    pub sort: Sort,
    pub id: Vec<u8>,
    /// The row it comes from; none is the envelope.
    pub row: Option<Row>,
    pub places: Vec<Place>,
}

impl Segment {
    /// A cell or envelope text holds a separator.
    pub fn holds_separator(&self, envelope: &Envelope) -> bool {
        let separators = envelope.separators();
        let tried = |place: &&Place| matches!(place.made, Made::Bytes | Made::Envelope);
        let mut tried = self.places.iter().filter(tried);
        tried.any(|place| place.text.iter().any(|byte| separators.contains(byte)))
    }
}

/// A stop: loop and row.
pub type Stop = (u32, Row);

/// What a job comes to.
#[derive(Debug, Default)]
pub struct Due {
    pub segments: Vec<Segment>,
    pub stops: Vec<Stop>,
}

/// The due segments and the stops of a job.
pub fn due(job: &Job, hanging: &Hanging) -> Due {
    let counters = vec![job.envelope.control_number; job.spec.loops.len()];
    let mut walk = Walk { job, hanging, counters, due: Due::default() };
    let outside = Context { rows: vec![None; job.spec.tables.len()], run: None };
    for &root in &job.spec.roots {
        walk.visit(root, &outside);
    }
    walk.due
}

/// Where the walk is: the row of each table, and the run that cuts a table's rows, counted from the start of the
/// list it is in.
#[derive(Clone)]
struct Context {
    rows: Vec<Option<usize>>,
    run: Option<(u32, usize, usize)>,
}

impl Context {
    fn row(&self, table: u32) -> Option<Row> {
        self.rows.get(table as usize).copied().flatten().map(|row| (table, row))
    }

    /// The same at a row, with a run or without.
    fn at(&self, (table, row): Row, run: Option<(u32, usize, usize)>) -> Context {
        let mut context = Context { rows: self.rows.clone(), run };
        context.rows[table as usize] = Some(row);
        context
    }
}

struct Walk<'a> {
    job: &'a Job,
    hanging: &'a Hanging,
    /// By loop: the next control number.
    counters: Vec<u64>,
    due: Due,
}

impl Walk<'_> {
    /// All instances of a loop in a context, and how many there were.
    fn visit(&mut self, number: u32, context: &Context) -> usize {
        let instances = self.instances(number, context);
        for instance in &instances {
            self.instance(number, instance);
        }
        instances.len()
    }

    fn instances(&self, number: u32, context: &Context) -> Vec<Context> {
        let def = &self.job.spec.loops[number as usize];
        let one = |there: bool| if there { vec![context.clone()] } else { Vec::new() };
        match self.job.plan[number as usize].instances {
            Instances::Absent => Vec::new(),
            Instances::Envelope => one(true),
            Instances::Implied => {
                one(def.children.iter().any(|&child| !self.instances(child, context).is_empty()))
            }
            Instances::Inside(table) => one(context
                .row(table)
                .is_some_and(|row| def.usage == Usage::Required || self.has_data(number, row))),
            Instances::Rows(table) => {
                let (_, rows) = self.rows(table, context);
                rows.into_iter().map(|row| context.at((table, row), None)).collect()
            }
            Instances::Groups(table) => self.groups(number, table, context),
        }
    }

    /// The rows of a table in a context, and how many of the list stand before them.
    fn rows(&self, table: u32, context: &Context) -> (usize, Vec<usize>) {
        let all = match self.job.spec.tables[table as usize].parent {
            None => (0..self.job.data[table as usize].rows as usize).collect(),
            Some(parent) => {
                let above = context.row(parent);
                above.map_or_else(Vec::new, |above| self.hanging.below(above, table).to_vec())
            }
        };
        match context.run {
            Some((of, start, end)) if of == table => {
                (start, all.get(start..end).map(<[usize]>::to_vec).unwrap_or_default())
            }
            _ => (0, all),
        }
    }

    /// One context a run of rows that agree in the group columns, at its first row.
    fn groups(&self, number: u32, table: u32, context: &Context) -> Vec<Context> {
        let columns = &self.job.layout.group_columns[number as usize];
        let alike = |a: usize, b: usize| self.agree(table, columns.iter().copied(), a, b);
        let (before, rows) = self.rows(table, context);
        let mut start = before;
        let mut runs = Vec::new();
        for run in rows.chunk_by(|&a, &b| alike(a, b)) {
            let end = start + run.len();
            runs.push(context.at((table, run[0]), Some((table, start, end))));
            start = end;
        }
        runs
    }

    /// Two rows have the same cells in columns.
    fn agree(&self, table: u32, mut columns: impl Iterator<Item = u32>, a: usize, b: usize) -> bool {
        columns.all(|column| cell(self.job, table, column, a) == cell(self.job, table, column, b))
    }

    /// Some row segment of that table, here or in a loop inside the same table below, has a cell.
    fn has_data(&self, number: u32, row: Row) -> bool {
        let segments = &self.job.plan[number as usize].segments;
        let here = |segment: &SegmentPlan| segment.source == Source::Row(row.0) && self.filled(segment, row);
        let children = &self.job.spec.loops[number as usize].children;
        segments.iter().any(here)
            || children.iter().any(|&child| {
                self.job.plan[child as usize].instances == Instances::Inside(row.0)
                    && self.has_data(child, row)
            })
    }

    /// Some column cell that a segment plans isn't null.
    fn filled(&self, segment: &SegmentPlan, (table, row): Row) -> bool {
        columns(segment).any(|column| cell(self.job, table, column, row) != Cell::Null)
    }

    /// One instance: its stop, what its order lists, its closer.
    fn instance(&mut self, number: u32, context: &Context) {
        let job = self.job;
        let first = self.due.segments.len();
        if let Instances::Rows(table) = job.plan[number as usize].instances {
            self.due.stops.extend(context.row(table).map(|row| (number, row)));
        }
        let (mut control_number, mut children) = (Vec::new(), 0);
        for item in &job.layout.order[number as usize] {
            match item {
                Item::Loop(child) => children += self.visit(*child, context),
                Item::Segment(at) => {
                    if let Some(text) = self.planned(number, *at as usize, context) {
                        control_number = text;
                    }
                }
            }
        }
        let def = &job.spec.loops[number as usize];
        if let (Some(end), Some(rule)) = (&def.end, def.control) {
            let count = match rule.count {
                Count::Segments => self.due.segments.len() - first + 1,
                Count::Children => children,
            };
            self.closer(end, rule, control_number, count);
        }
    }

    /// A planned segment of an instance; a trigger gives the text of its control number.
    fn planned(&mut self, number: u32, at: usize, context: &Context) -> Option<Vec<u8>> {
        let job = self.job;
        let def = &job.spec.loops[number as usize];
        let LoopPlan { instances, segments } = &job.plan[number as usize];
        let segment = &segments[at];
        let id = &def.occurrences[segment.occurrence as usize];
        match segment.source {
            Source::Envelope => return def.control.map(|rule| self.trigger(number, rule)),
            Source::Row(table) => {
                let forced = job.layout.forced[number as usize].get(at) == Some(&true);
                let row = context.row(table).filter(|&row| forced || self.filled(segment, row));
                row.into_iter().for_each(|row| self.row_segment(id, segment, row));
            }
            Source::Repeat(table) => {
                if let Instances::Rows(of) = instances
                    && let Some(owner) = context.row(*of)
                {
                    self.repeat_segment(number, id, segment, table, owner);
                }
            }
        }
        None
    }

    /// The closer of an instance.
    fn closer(&mut self, end: &[u8], rule: Control, control_number: Vec<u8>, count: usize) {
        let place = |element, text, made| Place { element, component: None, text, made };
        let places = vec![
            place(rule.closer, control_number, Made::ControlNumber),
            place(rule.count_element, count.to_string().into_bytes(), Made::Count),
        ];
        self.due.segments.push(Segment { sort: Sort::Closer, id: end.to_vec(), row: None, places });
    }

    /// The trigger of a loop with its next control number, whose text it gives.
    fn trigger(&mut self, number: u32, rule: Control) -> Vec<u8> {
        let job = self.job;
        let counter = &mut self.counters[number as usize];
        let text = counter.to_string().into_bytes();
        *counter = counter.wrapping_add(1);
        let id = &job.spec.loops[number as usize].trigger;
        let elements = job.spec.segments.get(id).map_or(&[][..], |def| &def.elements.0);
        let opener = elements.iter().find(|(at, _)| *at == rule.opener);
        let control_number = fields::zeros(text, opener.and_then(|(_, def)| def.min));
        let depth = job.layout.depth[number as usize].unwrap_or(0);
        let mut places = Vec::new();
        for (element, def) in elements {
            let (text, made) = if *element == rule.opener {
                (control_number.clone(), Made::ControlNumber)
            } else {
                let (text, given) = fields::text(job, depth, id, *element, def);
                let made = match given {
                    Given::Text => Made::Envelope,
                    Given::Moment => Made::Moment,
                    Given::Separator => Made::Separator,
                    Given::Code => Made::Code,
                };
                (text, made)
            };
            places.push(Place { element: *element, component: None, text, made });
        }
        self.due.segments.push(Segment { sort: Sort::Trigger, id: id.clone(), row: None, places });
        control_number
    }

    fn row_segment(&mut self, id: &[u8], segment: &SegmentPlan, row: Row) {
        let places =
            segment.elements.iter().filter_map(|planned| self.place(id, planned, planned.element, row));
        let places = places.collect();
        self.due.segments.push(Segment { sort: Sort::Row, id: id.to_vec(), row: Some(row), places });
    }

    /// A planned column or code at an element; a `Group` value plans nothing here.
    fn place(&self, id: &[u8], planned: &ElementPlan, element: u32, row: Row) -> Option<Place> {
        match &planned.value {
            Value::Column(column) => Some(self.cell_place(id, planned, element, *column, row)),
            Value::Code(code) => {
                let (component, text) = (planned.component, code.clone());
                Some(Place { element, component, text, made: Made::Code })
            }
            Value::Group(_) => None,
        }
    }

    fn cell_place(&self, id: &[u8], planned: &ElementPlan, element: u32, column: u32, row: Row) -> Place {
        let cell = cell(self.job, row.0, column, row.1);
        let made = match cell {
            Cell::Null => Made::Null,
            Cell::Bytes(_) => Made::Bytes,
            Cell::Integer(_) => Made::Integer,
            Cell::Decimal(..) => Made::Decimal,
            Cell::Date(_) => Made::Date,
            Cell::Time(_) => Made::Time,
        };
        let component = planned.component;
        match cell.text(self.max(id, element, component)) {
            Some(text) => Place { element, component, text, made },
            None => Place { element, component, text: Vec::new(), made: Made::NotWritable },
        }
    }

    /// The max of an element, or of its component.
    fn max(&self, id: &[u8], element: u32, component: Option<u32>) -> Option<u32> {
        let def = self.job.spec.segments.get(&id.to_vec())?.elements.get(&element)?;
        match component {
            None => def.max,
            Some(component) => def.components.get(&component)?.max,
        }
    }

    /// The chunks of a repeat segment below a row: each row stops, the columns and codes are the first row's.
    fn repeat_segment(&mut self, number: u32, id: &[u8], segment: &SegmentPlan, table: u32, owner: Row) {
        let rows = self.hanging.below(owner, table).to_vec();
        let step = self.job.spec.tables[table as usize].repeat.map_or(0, |repeat| repeat.step);
        let mut rest = rows.as_slice();
        while let Some(&first) = rest.first() {
            let (chunk, behind) = rest.split_at(self.chunk(segment, table, rest));
            rest = behind;
            self.due.stops.extend(chunk.iter().map(|&row| (number, (table, row))));
            let mut places = Vec::new();
            for planned in &segment.elements {
                let Value::Group(column) = planned.value else {
                    places.extend(self.place(id, planned, planned.element, (table, first)));
                    continue;
                };
                for (&row, k) in chunk.iter().zip(0..) {
                    let element = planned.element + k * step;
                    places.push(self.cell_place(id, planned, element, column, (table, row)));
                }
            }
            let row = Some((table, first));
            self.due.segments.push(Segment { sort: Sort::Repeat, id: id.to_vec(), row, places });
        }
    }

    /// How many of the rows, at least one, make up the first chunk.
    fn chunk(&self, segment: &SegmentPlan, table: u32, rows: &[usize]) -> usize {
        let capacity = self.job.layout.capacity[table as usize].max(1) as usize;
        let source =
            |row: usize| self.job.data[table as usize].segment.as_ref().and_then(|column| column.answer(row));
        let alike =
            |row: usize| source(row) == source(rows[0]) && self.agree(table, columns(segment), rows[0], row);
        rows.iter().take(capacity).take_while(|&&row| alike(row)).count()
    }
}

/// The columns that a segment plans, `Group` values aside.
fn columns(segment: &SegmentPlan) -> impl Iterator<Item = u32> {
    segment.elements.iter().filter_map(|planned| match planned.value {
        Value::Column(column) => Some(column),
        _ => None,
    })
}
