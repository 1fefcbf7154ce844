//! Makes a job smaller while it keeps something, such as a difference between two writers.

use job::*;

/// One way to make a job smaller.
type Edit = Box<dyn Fn(&mut Job)>;

/// The smallest job found by taking things away one by one, as long as `keeps` holds. It may ask
/// about jobs that are refused.
pub fn shrink(job: &Job, mut keeps: impl FnMut(&Job) -> bool) -> Job {
    let mut best = job.clone();
    loop {
        let before = best.clone();
        let mut at = 0;
        loop {
            let all = edits(&best);
            let Some(edit) = all.get(at) else {
                break;
            };
            let mut smaller = best.clone();
            edit(&mut smaller);
            if smaller != best && encode(&smaller).len() <= encode(&best).len() && keeps(&smaller) {
                best = smaller;
            } else {
                at += 1;
            }
        }
        if best == before {
            return best;
        }
    }
}

/// Every edit of a job, the large ones first.
fn edits(job: &Job) -> Vec<Edit> {
    let mut all: Vec<Edit> = Vec::new();
    for number in (0..job.spec.loops.len()).rev() {
        all.push(Box::new(move |job| remove_loop(job, number)));
    }
    all.push(Box::new(|job| drop(job.spec.tables.pop())));
    all.push(Box::new(|job| drop(job.data.pop())));
    for table in 0..job.data.len() {
        let rows = job.data[table].rows as usize;
        if rows > 8 {
            all.push(Box::new(move |job| remove_rows(&mut job.data[table], rows / 2, rows)));
            all.push(Box::new(move |job| remove_rows(&mut job.data[table], 0, rows / 2)));
        }
        for row in (0..rows.min(64)).rev() {
            all.push(Box::new(move |job| remove_rows(&mut job.data[table], row, row + 1)));
        }
    }
    segment_edits(job, &mut all);
    spec_edits(job, &mut all);
    data_edits(job, &mut all);
    envelope_edits(&mut all);
    for length in [job.spec.loops.len(), 0] {
        all.push(Box::new(move |job| job.plan.truncate(length)));
        all.push(Box::new(move |job| job.layout.order.truncate(length)));
        all.push(Box::new(move |job| job.layout.forced.truncate(length)));
        all.push(Box::new(move |job| job.layout.group_columns.truncate(length)));
        all.push(Box::new(move |job| job.layout.depth.truncate(length)));
    }
    all.push(Box::new(|job| job.layout.capacity.truncate(job.spec.tables.len())));
    all
}

/// Planned segments, their elements, orders, flags.
fn segment_edits(job: &Job, all: &mut Vec<Edit>) {
    for (number, plan) in job.plan.iter().enumerate() {
        all.push(Box::new(move |job| job.plan[number].instances = Instances::Envelope));
        for segment in (0..plan.segments.len()).rev() {
            all.push(Box::new(move |job| remove_segment(job, number, segment)));
            for element in (0..plan.segments[segment].elements.len()).rev() {
                all.push(Box::new(move |job| {
                    job.plan[number].segments[segment].elements.remove(element);
                }));
                all.push(Box::new(move |job| {
                    job.plan[number].segments[segment].elements[element].component = None;
                }));
                all.push(Box::new(move |job| {
                    if let Value::Code(code) = &mut job.plan[number].segments[segment].elements[element].value
                    {
                        code.truncate(code.len() / 2);
                    }
                }));
            }
        }
    }
    for (number, order) in job.layout.order.iter().enumerate() {
        for item in (0..order.len()).rev() {
            all.push(Box::new(move |job| {
                job.layout.order[number].remove(item);
            }));
        }
    }
    for (number, columns) in job.layout.group_columns.iter().enumerate() {
        for column in (0..columns.len()).rev() {
            all.push(Box::new(move |job| {
                job.layout.group_columns[number].remove(column);
            }));
        }
    }
    for number in 0..job.layout.depth.len() {
        all.push(Box::new(move |job| job.layout.depth[number] = None));
    }
    for table in 0..job.layout.capacity.len() {
        all.push(Box::new(move |job| job.layout.capacity[table] = 1));
    }
}

fn spec_edits(job: &Job, all: &mut Vec<Edit>) {
    for number in 0..job.spec.loops.len() {
        all.push(Box::new(move |job| job.spec.loops[number].control = None));
        all.push(Box::new(move |job| job.spec.loops[number].end = None));
        all.push(Box::new(move |job| job.spec.loops[number].usage = Usage::Situational));
        all.push(Box::new(move |job| drop(job.spec.loops[number].occurrences.pop())));
    }
    for (at, (_, segment)) in job.spec.segments.0.iter().enumerate().rev() {
        all.push(Box::new(move |job| drop(job.spec.segments.0.remove(at))));
        for element in (0..segment.elements.0.len()).rev() {
            all.push(Box::new(move |job| drop(job.spec.segments.0[at].1.elements.0.remove(element))));
            all.push(Box::new(move |job| {
                let (_, def) = &mut job.spec.segments.0[at].1.elements.0[element];
                def.components.0.pop();
            }));
            all.push(Box::new(move |job| {
                let (_, def) = &mut job.spec.segments.0[at].1.elements.0[element];
                def.codes.pop();
            }));
            all.push(Box::new(move |job| job.spec.segments.0[at].1.elements.0[element].1.min = None));
            all.push(Box::new(move |job| job.spec.segments.0[at].1.elements.0[element].1.max = None));
            all.push(Box::new(move |job| job.spec.segments.0[at].1.elements.0[element].1.kind = Kind::An));
        }
    }
    all.push(Box::new(|job| job.spec.version = None));
    for (table, def) in job.spec.tables.iter().enumerate() {
        all.push(Box::new(move |job| job.spec.tables[table].parent = None));
        all.push(Box::new(move |job| job.spec.tables[table].repeat = None));
        all.push(Box::new(move |job| job.spec.tables[table].segment = false));
        for at in (0..def.ancestors.len()).rev() {
            all.push(Box::new(move |job| {
                job.spec.tables[table].ancestors.remove(at);
            }));
        }
        for at in (0..def.loops.len()).rev() {
            all.push(Box::new(move |job| {
                job.spec.tables[table].loops.remove(at);
            }));
        }
    }
}

fn data_edits(job: &Job, all: &mut Vec<Edit>) {
    for (table, data) in job.data.iter().enumerate() {
        all.push(Box::new(move |job| job.data[table].row = None));
        all.push(Box::new(move |job| job.data[table].segment = None));
        for at in (0..data.refs.len()).rev() {
            all.push(Box::new(move |job| drop(job.data[table].refs.remove(at))));
            all.push(Box::new(move |job| job.data[table].refs[at].1 = None));
        }
        all.push(Box::new(move |job| {
            let data = &mut job.data[table];
            data.columns.pop();
            if let Some(def) = job.spec.tables.get_mut(table) {
                def.columns = data.columns.len() as u32;
            }
        }));
        for at in 0..data.columns.len() {
            all.push(Box::new(move |job| job.data[table].columns[at] = None));
            all.push(Box::new(move |job| {
                let rows = job.data[table].rows.min(4_096) as usize;
                job.data[table].columns[at] = Some(Column::binary(&vec![Some("A"); rows]));
            }));
            all.push(Box::new(move |job| {
                if let Some(Column { values: Values::Binary(offsets, data), .. }) =
                    &mut job.data[table].columns[at]
                {
                    offsets.iter_mut().for_each(|offset| *offset /= 2);
                    data.truncate(data.len() / 2);
                }
            }));
        }
    }
}

fn envelope_edits(all: &mut Vec<Edit>) {
    all.push(Box::new(|job| job.envelope = Envelope::default()));
    all.push(Box::new(|job| job.envelope.application_sender = None));
    all.push(Box::new(|job| job.envelope.application_receiver = None));
    all.push(Box::new(|job| job.envelope.sender_qualifier.clear()));
    all.push(Box::new(|job| job.envelope.sender_id.clear()));
    all.push(Box::new(|job| job.envelope.receiver_qualifier.clear()));
    all.push(Box::new(|job| job.envelope.receiver_id.clear()));
    all.push(Box::new(|job| job.envelope.usage_indicator.clear()));
    all.push(Box::new(|job| job.envelope.date = 0));
    all.push(Box::new(|job| job.envelope.time = 0));
    all.push(Box::new(|job| job.envelope.control_number = 1));
    all.push(Box::new(|job| job.envelope.repetition = None));
    all.push(Box::new(|job| job.envelope.line_break = false));
    all.push(Box::new(|job| {
        (job.envelope.element, job.envelope.component, job.envelope.segment) = (b'*', b':', b'~');
    }));
}

/// Takes a loop out; its children go up to its parent, and the loops behind it move down by one.
fn remove_loop(job: &mut Job, number: usize) {
    let gone = job.spec.loops.remove(number);
    let parent = gone.parent.filter(|&parent| parent as usize != number);
    let moved = |at: u32| if at as usize > number { at - 1 } else { at };
    let put = |list: &mut Vec<u32>, children: &[u32]| {
        if let Some(at) = list.iter().position(|&other| other as usize == number) {
            list.splice(at..=at, children.iter().copied());
        }
        list.retain(|&other| other as usize != number);
    };
    for def in &mut job.spec.loops {
        put(&mut def.children, &gone.children);
        def.children.iter_mut().for_each(|child| *child = moved(*child));
        if def.parent == Some(number as u32) {
            def.parent = parent;
        }
        def.parent = def.parent.map(moved);
    }
    put(&mut job.spec.roots, &gone.children);
    job.spec.roots.iter_mut().for_each(|root| *root = moved(*root));
    for table in &mut job.spec.tables {
        table.loops.retain(|&at| at as usize != number);
        table.loops.iter_mut().for_each(|at| *at = moved(*at));
    }
    for order in &mut job.layout.order {
        let mut items = Vec::new();
        for &item in order.iter() {
            match item {
                Item::Loop(at) if at as usize == number => {
                    items.extend(gone.children.iter().map(|&at| Item::Loop(at)))
                }
                item => items.push(item),
            }
        }
        for item in &mut items {
            if let Item::Loop(at) = item {
                *at = moved(*at);
            }
        }
        *order = items;
    }
    fn take<T>(list: &mut Vec<T>, at: usize) {
        if at < list.len() {
            list.remove(at);
        }
    }
    take(&mut job.plan, number);
    take(&mut job.layout.order, number);
    take(&mut job.layout.forced, number);
    take(&mut job.layout.group_columns, number);
    take(&mut job.layout.depth, number);
}

/// Takes a planned segment out of its loop's plan, order and flags.
fn remove_segment(job: &mut Job, number: usize, segment: usize) {
    job.plan[number].segments.remove(segment);
    if let Some(order) = job.layout.order.get_mut(number) {
        order.retain(|item| *item != Item::Segment(segment as u32));
        for item in order {
            if let Item::Segment(at) = item
                && *at as usize > segment
            {
                *at -= 1;
            }
        }
    }
    if let Some(forced) = job.layout.forced.get_mut(number)
        && segment < forced.len()
    {
        forced.remove(segment);
    }
}

/// Takes rows out of a table, as far as its columns have them.
fn remove_rows(data: &mut TableData, from: usize, to: usize) {
    data.rows -= (to - from) as u32;
    let columns = data.row.iter_mut().chain(&mut data.segment).chain(data.columns.iter_mut().flatten());
    for column in columns.chain(data.refs.iter_mut().filter_map(|(_, column)| column.as_mut())) {
        remove_cells(column, from, to);
    }
}

fn remove_cells(column: &mut Column, from: usize, to: usize) {
    fn cut<T>(values: &mut Vec<T>, from: usize, to: usize) {
        let (from, to) = (from.min(values.len()), to.min(values.len()));
        values.drain(from..to);
    }
    match &mut column.values {
        Values::Binary(offsets, data) => {
            let at = |row: usize| offsets.get(row).and_then(|&offset| usize::try_from(offset).ok());
            if let (Some(start), Some(end)) = (at(from), at(to))
                && start <= end
                && end <= data.len()
            {
                data.drain(start..end);
                let less = (end - start) as i32;
                offsets.iter_mut().skip(to).for_each(|offset| *offset = offset.wrapping_sub(less));
            }
            cut(offsets, from + 1, to + 1);
        }
        Values::Int64(values, _) => cut(values, from, to),
        Values::Decimal128(values, _) => cut(values, from, to),
        Values::Date32(values) | Values::Time32(values) => cut(values, from, to),
    }
    let rows = column.validity.len.min(8_192) as usize;
    let kept = (0..rows).filter(|row| !(from..to).contains(row));
    let bits: Option<Vec<bool>> = kept.map(|row| column.validity.bit(row)).collect();
    if let Some(bits) = bits {
        column.validity = Validity::of(bits);
    }
}
