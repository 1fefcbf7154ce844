//! From a job to its text.

use super::*;
use std::fmt::Write as _;

/// The width past which a line is continued on the next.
const WIDTH: usize = 110;

/// A line being put together, word by word.
struct Words(Vec<String>);

impl Words {
    fn new(first: impl Into<String>) -> Words {
        Words(vec![first.into()])
    }

    fn word(&mut self, word: impl Into<String>) -> &mut Words {
        self.0.push(word.into());
        self
    }

    fn number(&mut self, number: impl ToString) -> &mut Words {
        self.word(number.to_string())
    }

    fn numbers<T: ToString>(&mut self, numbers: &[T]) -> &mut Words {
        for number in numbers {
            self.number(number.to_string());
        }
        self
    }

    fn text(&mut self, bytes: &[u8]) -> &mut Words {
        self.word(quote(bytes))
    }

    fn end(&self, indent: usize, out: &mut String) {
        let mut width = indent;
        let _ = write!(out, "{:indent$}", "");
        for (at, word) in self.0.iter().enumerate() {
            if at > 0 && width + 1 + word.len() > WIDTH {
                let _ = write!(out, "\n{:width$}+", "", width = indent + 2);
                width = indent + 3;
            }
            if at > 0 {
                out.push(' ');
                width += 1;
            }
            out.push_str(word);
            width += word.len();
        }
        out.push('\n');
    }
}

/// Bytes as they stand in the text: bare where they can.
fn quote(bytes: &[u8]) -> String {
    if is_bare(bytes) { String::from_utf8_lossy(bytes).into_owned() } else { quoted(bytes) }
}

fn quoted(bytes: &[u8]) -> String {
    let mut text = String::from("\"");
    for &byte in bytes {
        match byte {
            b'"' => text.push_str("\\\""),
            b'\\' => text.push_str("\\\\"),
            b'\n' => text.push_str("\\n"),
            32..=126 => text.push(char::from(byte)),
            _ => {
                let _ = write!(text, "\\x{byte:02x}");
            }
        }
    }
    text.push('"');
    text
}

fn date(days: i32) -> String {
    let (year, month, day) = calendar::date(i64::from(days));
    if (1..=9999).contains(&year) { format!("{year:04}-{month:02}-{day:02}") } else { format!("@{days}") }
}

fn time(seconds: i32) -> String {
    if (0..86_400).contains(&seconds) {
        format!("{:02}:{:02}:{:02}", seconds / 3600, seconds / 60 % 60, seconds % 60)
    } else {
        format!("@{seconds}")
    }
}

fn decimal(value: i128, scale: u8) -> String {
    let scale = usize::from(scale);
    let digits = format!("{:0>width$}", value.unsigned_abs(), width = scale + 1);
    let (whole, fraction) = digits.split_at(digits.len() - scale);
    let sign = if value < 0 { "-" } else { "" };
    if scale == 0 { format!("{sign}{whole}") } else { format!("{sign}{whole}.{fraction}") }
}

/// The text of a job. Reading it gives the job back.
pub fn print(job: &Job) -> String {
    let mut out = String::new();
    envelope(&job.envelope, &mut out);
    if let Some(version) = &job.spec.version {
        let mut line = Words::new("version");
        line.text(&version.segment).number(version.element).text(&version.value);
        line.end(0, &mut out);
    }
    for (id, def) in &job.spec.segments.0 {
        segment_def(id, def, &mut out);
    }
    let layout = &job.layout;
    let lengths = [
        job.spec.loops.len(),
        job.plan.len(),
        layout.order.len(),
        layout.forced.len(),
        layout.group_columns.len(),
        layout.depth.len(),
    ];
    for number in 0..lengths.into_iter().max().unwrap_or(0) {
        loop_block(job, number, &mut out);
    }
    if job.spec.roots != default_children(&job.spec.loops, None) {
        Words::new("roots").numbers(&job.spec.roots).end(0, &mut out);
    }
    let tables = job.spec.tables.len().max(job.data.len()).max(layout.capacity.len());
    for number in 0..tables {
        table_block(job, number, &mut out);
    }
    lists(job, &mut out);
    out
}

fn envelope(envelope: &Envelope, out: &mut String) {
    let usual = Envelope::default();
    let mut line = Words::new("envelope");
    let pair = |a: &Envelope| {
        let sender = (a.sender_qualifier.clone(), a.sender_id.clone());
        (sender, (a.receiver_qualifier.clone(), a.receiver_id.clone()))
    };
    let ((sender, receiver), (usual_sender, usual_receiver)) = (pair(envelope), pair(&usual));
    if sender != usual_sender {
        line.word("sender").text(&sender.0).text(&sender.1);
    }
    if receiver != usual_receiver {
        line.word("receiver").text(&receiver.0).text(&receiver.1);
    }
    let applications = [&envelope.application_sender, &envelope.application_receiver];
    if applications.iter().any(|code| code.is_some()) {
        line.word("application");
        for code in applications {
            line.word(code.as_ref().map_or("-".to_string(), |code| quote(code)));
        }
    }
    if envelope.date != usual.date {
        line.word("date").word(date(envelope.date));
    }
    if envelope.time != usual.time {
        line.word("time").word(time(envelope.time));
    }
    if envelope.usage_indicator != usual.usage_indicator {
        line.word("usage").text(&envelope.usage_indicator);
    }
    if envelope.control_number != usual.control_number {
        line.word("control").number(envelope.control_number);
    }
    let separators = |a: &Envelope| {
        let mut all = vec![a.element, a.component, a.segment];
        all.extend(a.repetition);
        all
    };
    if separators(envelope) != separators(&usual) {
        line.word("separators").word(quoted(&separators(envelope)));
    }
    if envelope.line_break {
        line.word("breaks");
    }
    if line.0.len() > 1 {
        line.end(0, out);
    }
}

fn kind(kind: Kind) -> String {
    match kind {
        Kind::An => "AN".into(),
        Kind::Id => "ID".into(),
        Kind::N(places) => format!("N{places}"),
        Kind::R(places) => format!("R{places}"),
        Kind::Dt => "DT".into(),
        Kind::Tm => "TM".into(),
    }
}

fn bounds(min: Option<u32>, max: Option<u32>) -> String {
    let show = |bound: Option<u32>| bound.map_or(String::new(), |bound| bound.to_string());
    match (min, max) {
        (None, None) => String::new(),
        _ => format!("/{}-{}", show(min), show(max)),
    }
}

fn codes(codes: &[Vec<u8>]) -> String {
    if codes.is_empty() {
        return String::new();
    }
    let quoted: Vec<String> = codes.iter().map(|code| quote(code)).collect();
    format!("({})", quoted.join(","))
}

fn segment_def(id: &[u8], def: &SegmentDef, out: &mut String) {
    let mut line = Words::new("segment");
    line.text(id);
    for (position, element) in &def.elements.0 {
        let mut word = format!(
            "{position}={}{}{}",
            kind(element.kind),
            bounds(element.min, element.max),
            codes(&element.codes)
        );
        if !element.components.0.is_empty() {
            let components: Vec<String> = element
                .components
                .0
                .iter()
                .map(|(position, component)| {
                    let bounds = bounds(component.min, component.max);
                    format!("{position}={}{bounds}{}", kind(component.kind), codes(&component.codes))
                })
                .collect();
            let _ = write!(word, "{{{}}}", components.join(" "));
        }
        line.word(word);
    }
    line.end(0, out);
}

fn loop_block(job: &Job, number: usize, out: &mut String) {
    let (loops, layout) = (&job.spec.loops, &job.layout);
    let absent = LoopPlan::default();
    let plan = job.plan.get(number).unwrap_or(&absent);
    let mut line = match loops.get(number) {
        Some(def) => {
            let mut line = Words::new("loop");
            line.number(number).text(&def.trigger);
            if let Some(parent) = def.parent {
                line.word("in").number(parent);
            }
            line
        }
        None => {
            let mut line = Words::new("past");
            line.word("loop").number(number);
            line
        }
    };
    match plan.instances {
        Instances::Absent => line.word("absent"),
        Instances::Envelope => line.word("envelope"),
        Instances::Rows(table) => line.word("rows").number(table),
        Instances::Inside(table) => line.word("inside").number(table),
        Instances::Groups(table) => line.word("groups").number(table),
        Instances::Implied => line.word("implied"),
    };
    let none = Loop::default();
    let def = loops.get(number).unwrap_or(&none);
    if def.usage == Usage::Required {
        line.word("required");
    }
    if let Some(end) = &def.end {
        line.word("end").text(end);
    }
    if let Some(rule) = def.control {
        line.word("control").numbers(&[rule.opener, rule.closer, rule.count_element]);
        line.word(match rule.count {
            Count::Segments => "segments",
            Count::Children => "children",
        });
    }
    line.end(0, out);
    let own = own_occurrences(def, plan);
    if !own {
        let mut line = Words::new("occurrences");
        for id in &def.occurrences {
            line.text(id);
        }
        line.end(2, out);
    }
    let marks = layout.forced.get(number).filter(|forced| forced.len() == plan.segments.len());
    for (at, segment) in plan.segments.iter().enumerate() {
        let forced = marks.is_some_and(|marks| marks[at]);
        planned(def, segment, forced, own, out);
    }
    if number < loops.len() && def.children != default_children(loops, Some(number as u32)) {
        Words::new("children").numbers(&def.children).end(2, out);
    }
    if let Some(order) = layout.order.get(number)
        && *order != default_order(plan.segments.len(), &def.children)
    {
        let mut line = Words::new("order");
        for item in order {
            match item {
                Item::Segment(at) => line.number(at),
                Item::Loop(child) => line.word(format!(">{child}")),
            };
        }
        line.end(2, out);
    }
    if let Some(forced) = layout.forced.get(number)
        && marks.is_none()
    {
        let flags: Vec<u8> = forced.iter().map(|&flag| u8::from(flag)).collect();
        Words::new("forced").numbers(&flags).end(2, out);
    }
    if let Some(columns) = layout.group_columns.get(number)
        && *columns != default_group_columns(plan)
    {
        Words::new("group-columns").numbers(columns).end(2, out);
    }
    if let Some(depth) = layout.depth.get(number)
        && *depth != default_depth(loops, number)
    {
        let shown = depth.map_or("-".to_string(), |depth| depth.to_string());
        Words::new("depth").word(shown).end(2, out);
    }
}

/// Whether a loop's occurrences are one a planned segment, in order.
fn own_occurrences(def: &Loop, plan: &LoopPlan) -> bool {
    def.occurrences.len() == plan.segments.len()
        && plan.segments.iter().enumerate().all(|(at, segment)| segment.occurrence as usize == at)
}

fn planned(def: &Loop, segment: &SegmentPlan, forced: bool, own: bool, out: &mut String) {
    let mark = if forced { "!" } else { "" };
    let mut line = match segment.source {
        Source::Envelope => Words::new(format!("envelope{mark}")),
        Source::Row(table) => {
            let mut line = Words::new(format!("row{mark}"));
            line.number(table);
            line
        }
        Source::Repeat(table) => {
            let mut line = Words::new(format!("repeat{mark}"));
            line.number(table);
            line
        }
    };
    let id = def.occurrences.get(segment.occurrence as usize);
    let first = |id: &Vec<u8>| def.occurrences.iter().position(|other| other == id);
    let named = id.filter(|id| own || first(id) == Some(segment.occurrence as usize));
    let plain = segment.source == Source::Envelope && segment.elements.is_empty();
    match named {
        Some(id) if plain && *id == def.trigger => {}
        Some(id) => {
            line.text(id);
        }
        None => {
            line.word(format!("@{}", segment.occurrence));
        }
    }
    for element in &segment.elements {
        let place = match element.component {
            Some(component) => format!("{}-{component}", element.element),
            None => element.element.to_string(),
        };
        line.word(match &element.value {
            Value::Column(column) => format!("{place}=c{column}"),
            Value::Group(column) => format!("{place}=g{column}"),
            Value::Code(code) => format!("{place}={}", quoted(code)),
        });
    }
    line.end(2, out);
}

fn table_block(job: &Job, number: usize, out: &mut String) {
    let none = TableData::default();
    let data = job.data.get(number).unwrap_or(&none);
    let mut line = match job.spec.tables.get(number) {
        Some(def) => {
            let mut line = Words::new("table");
            line.number(number);
            if def.segment {
                line.word("on-segment");
            }
            if let Some(repeat) = def.repeat {
                line.word("repeat").number(repeat.from).number(repeat.step);
            }
            if def.loops != default_loops(&job.plan, job.spec.loops.len(), number, def.segment) {
                line.word("loops").numbers(&def.loops);
            }
            if let Some(parent) = def.parent {
                line.word("parent").number(parent);
            }
            if def.ancestors != default_ancestors(&job.spec.tables, number) {
                line.word("ancestors").numbers(&def.ancestors);
            }
            if def.columns as usize != data.columns.len() {
                line.word("columns").number(def.columns);
            }
            line
        }
        None => {
            let mut line = Words::new("past");
            line.word("table").number(number);
            line
        }
    };
    if let Some(&capacity) = job.layout.capacity.get(number)
        && capacity != 1
    {
        line.word("capacity").number(capacity);
    }
    line.end(0, out);
    table_data(data, out);
}

/// The word for a kind of column.
fn column_kind(values: &Values) -> String {
    match values {
        Values::Binary(..) => "text".into(),
        Values::Int64(_, 0) => "int".into(),
        Values::Int64(_, scale) => format!("int.{scale}"),
        Values::Decimal128(_, scale) => format!("dec.{scale}"),
        Values::Date32(_) => "date".into(),
        Values::Time32(_) => "time".into(),
    }
}

/// The cells of a column that holds exactly a table's rows in the plainest way.
fn plain_cells(column: &Column, rows: u32) -> Option<Vec<String>> {
    let rows = rows as usize;
    if column.validity.len as usize != rows {
        return None;
    }
    let valid = |row: usize| column.validity.bit(row).unwrap_or(false);
    fn cells<T: Copy>(values: &[T], rows: usize, valid: impl Fn(usize) -> bool) -> Option<Vec<Option<T>>> {
        let cell = |(row, &value): (usize, &T)| valid(row).then_some(value);
        (values.len() == rows).then(|| values.iter().enumerate().map(cell).collect())
    }
    let show = |cells: Vec<Option<String>>| {
        cells.into_iter().map(|cell| cell.unwrap_or_else(|| "-".into())).collect()
    };
    let (again, shown): (Column, Vec<Option<String>>) = match &column.values {
        Values::Binary(offsets, data) => {
            if offsets.len() != rows + 1 {
                return None;
            }
            let mut cells = Vec::new();
            for (row, ends) in offsets.windows(2).enumerate() {
                let (start, end) = (usize::try_from(ends[0]).ok()?, usize::try_from(ends[1]).ok()?);
                let bytes = data.get(start..end)?;
                cells.push(valid(row).then_some(bytes));
            }
            let shown = cells.iter().map(|cell| cell.map(quote)).collect();
            (Column::binary(&cells), shown)
        }
        Values::Int64(values, scale) => {
            let cells = cells(values, rows, valid)?;
            let shown = cells.iter().map(|cell| cell.map(|value| value.to_string())).collect();
            (Column::int64(&cells, *scale), shown)
        }
        Values::Decimal128(values, scale) => {
            let cells = cells(values, rows, valid)?;
            let shown = cells.iter().map(|cell| cell.map(|value| decimal(value, *scale))).collect();
            (Column::decimal(&cells, *scale), shown)
        }
        Values::Date32(values) => {
            let cells = cells(values, rows, valid)?;
            (Column::date(&cells), cells.iter().map(|cell| cell.map(date)).collect())
        }
        Values::Time32(values) => {
            let cells = cells(values, rows, valid)?;
            (Column::time(&cells), cells.iter().map(|cell| cell.map(time)).collect())
        }
    };
    (again == *column).then(|| show(shown))
}

fn table_data(data: &TableData, out: &mut String) {
    let mut line = Words::new(":");
    let mut plain: Vec<Vec<String>> = Vec::new();
    let mut raw: Vec<&Column> = Vec::new();
    let mut named: Vec<(String, &Option<Column>)> = Vec::new();
    for (name, column) in [("key", &data.row), ("segment", &data.segment)] {
        if column.is_some() {
            named.push((name.into(), column));
        }
    }
    named.extend(data.refs.iter().map(|(table, column)| (format!("ref{table}"), column)));
    named.extend(data.columns.iter().map(|column| (String::new(), column)));
    for (name, column) in named {
        let kind = match column {
            None => "none".into(),
            Some(column) => match plain_cells(column, data.rows) {
                Some(cells) => {
                    plain.push(cells);
                    column_kind(&column.values)
                }
                None => {
                    raw.push(column);
                    "raw".into()
                }
            },
        };
        line.word(match (name.as_str(), kind.as_str()) {
            ("", _) => kind,
            (_, "int") => name,
            _ => format!("{name}:{kind}"),
        });
    }
    if line.0.len() > 1 {
        line.end(2, out);
    }
    for column in raw {
        raw_column(column, out);
    }
    if plain.is_empty() && data.rows > 0 {
        Words::new("rows").number(data.rows).end(2, out);
    }
    if plain.is_empty() {
        return;
    }
    for row in 0..data.rows as usize {
        let mut line = Words::new("|");
        for cells in &plain {
            line.word(cells[row].clone());
        }
        line.end(2, out);
    }
}

fn raw_column(column: &Column, out: &mut String) {
    let mut line = Words::new("raw");
    line.word(column_kind(&column.values));
    match &column.values {
        Values::Binary(offsets, data) => {
            line.word("offsets").numbers(offsets).word("data").word(quoted(data));
        }
        Values::Int64(values, _) => {
            line.word("values").numbers(values);
        }
        Values::Decimal128(values, _) => {
            line.word("values").numbers(values);
        }
        Values::Date32(values) | Values::Time32(values) => {
            line.word("values").numbers(values);
        }
    }
    let hex: String = column.validity.bytes.iter().map(|byte| format!("{byte:02x}")).collect();
    line.word("validity").word(if hex.is_empty() { "-".to_string() } else { hex });
    line.number(column.validity.len);
    line.end(2, out);
}

/// The lengths of lists that aren't the spec's.
fn lists(job: &Job, out: &mut String) {
    let (loops, tables, layout) = (job.spec.loops.len(), job.spec.tables.len(), &job.layout);
    let all = [
        ("plan", job.plan.len(), loops),
        ("order", layout.order.len(), loops),
        ("forced", layout.forced.len(), loops),
        ("groups", layout.group_columns.len(), loops),
        ("depth", layout.depth.len(), loops),
        ("capacity", layout.capacity.len(), tables),
        ("data", job.data.len(), tables),
    ];
    let mut line = Words::new("lists");
    for (name, length, usual) in all {
        if length != usual {
            line.word(format!("{name}={length}"));
        }
    }
    if line.0.len() > 1 {
        line.end(0, out);
    }
}
