//! From the text to a job.

use super::*;

/// What is wrong with a text, and in which line.
type Wrong = String;

/// A line with its continuations, without comments.
struct Line {
    number: usize,
    text: Vec<u8>,
}

/// Cuts a text into lines: comments go, a line that starts with `+` continues the one before.
fn lines(text: &[u8]) -> Result<Vec<Line>, Wrong> {
    let mut all: Vec<Line> = Vec::new();
    for (at, line) in text.split(|&byte| byte == b'\n').enumerate() {
        let kept = without_comment(line).trim_ascii();
        if let Some(more) = kept.strip_prefix(b"+") {
            let last = all.last_mut().ok_or("line 1: nothing to continue")?;
            last.text.push(b' ');
            last.text.extend_from_slice(more);
        } else if !kept.is_empty() {
            all.push(Line { number: at + 1, text: kept.to_vec() });
        }
    }
    Ok(all)
}

fn without_comment(line: &[u8]) -> &[u8] {
    let mut within = false;
    let mut at = 0;
    while at < line.len() {
        match line[at] {
            b'"' => within = !within,
            b'\\' if within => at += 1,
            b'#' if !within => return &line[..at],
            _ => {}
        }
        at += 1;
    }
    line
}

/// Reads a line from left to right.
struct Scan<'a> {
    number: usize,
    rest: &'a [u8],
}

impl<'a> Scan<'a> {
    fn new(line: &'a Line) -> Scan<'a> {
        Scan { number: line.number, rest: &line.text }
    }

    fn wrong<T>(&self, what: &str) -> Result<T, Wrong> {
        let rest = String::from_utf8_lossy(self.rest);
        Err(format!("line {}: {what} at `{}`", self.number, rest.chars().take(40).collect::<String>()))
    }

    fn blanks(&mut self) {
        self.rest = self.rest.trim_ascii_start();
    }

    fn done(&mut self) -> bool {
        self.blanks();
        self.rest.is_empty()
    }

    fn eat(&mut self, byte: u8) -> bool {
        let found = self.rest.first() == Some(&byte);
        if found {
            self.rest = &self.rest[1..];
        }
        found
    }

    fn expect(&mut self, byte: u8) -> Result<(), Wrong> {
        if self.eat(byte) { Ok(()) } else { self.wrong(&format!("`{}` expected", char::from(byte))) }
    }

    /// The bytes up to the next that doesn't belong.
    fn span(&mut self, belongs: impl Fn(u8) -> bool) -> &'a [u8] {
        let length = self.rest.iter().position(|&byte| !belongs(byte)).unwrap_or(self.rest.len());
        let (head, rest) = self.rest.split_at(length);
        self.rest = rest;
        head
    }

    /// The next word, up to a blank.
    fn word(&mut self) -> &'a str {
        self.blanks();
        std::str::from_utf8(self.span(|byte| !byte.is_ascii_whitespace())).unwrap_or("")
    }

    /// A number right here.
    fn digits<T: std::str::FromStr>(&mut self) -> Result<T, Wrong> {
        let before = self.rest;
        let minus = self.eat(b'-');
        let digits = self.span(|byte| byte.is_ascii_digit()).len();
        let text = std::str::from_utf8(&before[..digits + usize::from(minus)]).unwrap_or("");
        match text.parse() {
            Ok(number) => Ok(number),
            Err(_) => {
                self.rest = before;
                self.wrong("a number that fits expected")
            }
        }
    }

    fn number<T: std::str::FromStr>(&mut self) -> Result<T, Wrong> {
        self.blanks();
        self.digits()
    }

    /// As many numbers as follow.
    fn numbers<T: std::str::FromStr>(&mut self) -> Result<Vec<T>, Wrong> {
        let mut all = Vec::new();
        while !self.done() && (self.rest[0].is_ascii_digit() || self.rest[0] == b'-') {
            all.push(self.digits()?);
        }
        Ok(all)
    }

    /// Bytes, bare or quoted, right here.
    fn bytes(&mut self) -> Result<Vec<u8>, Wrong> {
        if self.rest.first() == Some(&b'"') {
            return self.quoted();
        }
        let bytes = self.span(bare_byte).to_vec();
        if is_bare(&bytes) { Ok(bytes) } else { self.wrong("bytes expected") }
    }

    fn text(&mut self) -> Result<Vec<u8>, Wrong> {
        self.blanks();
        self.bytes()
    }

    fn quoted(&mut self) -> Result<Vec<u8>, Wrong> {
        self.expect(b'"')?;
        let mut bytes = Vec::new();
        loop {
            let Some((&byte, rest)) = self.rest.split_first() else {
                return self.wrong("no closing quote");
            };
            self.rest = rest;
            match byte {
                b'"' => return Ok(bytes),
                b'\\' => bytes.push(self.escaped()?),
                _ => bytes.push(byte),
            }
        }
    }

    fn escaped(&mut self) -> Result<u8, Wrong> {
        let Some((&byte, rest)) = self.rest.split_first() else {
            return self.wrong("nothing escaped");
        };
        self.rest = rest;
        match byte {
            b'n' => Ok(b'\n'),
            b'"' | b'\\' => Ok(byte),
            b'x' if self.rest.len() >= 2 => {
                let (digits, rest) = self.rest.split_at(2);
                self.rest = rest;
                let value =
                    std::str::from_utf8(digits).ok().and_then(|text| u8::from_str_radix(text, 16).ok());
                value.map_or_else(|| self.wrong("two hexadecimal digits expected"), Ok)
            }
            _ => self.wrong("unknown escape"),
        }
    }

    /// `-` alone.
    fn none(&mut self) -> bool {
        self.blanks();
        let alone = self.rest.first() == Some(&b'-') && self.rest.get(1).is_none_or(u8::is_ascii_whitespace);
        if alone {
            self.rest = &self.rest[1..];
        }
        alone
    }

    fn date(&mut self) -> Result<i32, Wrong> {
        self.blanks();
        if self.eat(b'@') {
            return self.digits();
        }
        let year: u16 = self.digits()?;
        self.expect(b'-')?;
        let month: u8 = self.digits()?;
        self.expect(b'-')?;
        let day: u8 = self.digits()?;
        match calendar::days(i64::from(year), i64::from(month), i64::from(day)) {
            Some(days) => Ok(days as i32),
            None => self.wrong("no such date"),
        }
    }

    fn time(&mut self) -> Result<i32, Wrong> {
        self.blanks();
        if self.eat(b'@') {
            return self.digits();
        }
        let hours: u8 = self.digits()?;
        self.expect(b':')?;
        let minutes: u8 = self.digits()?;
        let seconds: u8 = if self.eat(b':') { self.digits()? } else { 0 };
        if hours > 23 || minutes > 59 || seconds > 59 {
            return self.wrong("no such time");
        }
        Ok(i32::from(hours) * 3600 + i32::from(minutes) * 60 + i32::from(seconds))
    }

    fn decimal(&mut self, scale: u8) -> Result<i128, Wrong> {
        self.blanks();
        let minus = self.eat(b'-');
        let mut digits = self.span(|byte| byte.is_ascii_digit()).to_vec();
        let fraction = if self.eat(b'.') { self.span(|byte| byte.is_ascii_digit()) } else { &[][..] };
        if digits.is_empty() || fraction.len() > usize::from(scale) {
            return self.wrong("a decimal of the column's scale expected");
        }
        digits.extend_from_slice(fraction);
        digits.resize(digits.len() + usize::from(scale) - fraction.len(), b'0');
        let value = digits.iter().try_fold(0i128, |value, digit| {
            let digit = i128::from(digit - b'0');
            value.checked_mul(10)?.checked_sub(digit)
        });
        let signed = if minus { value } else { value.and_then(i128::checked_neg) };
        signed.map_or_else(|| self.wrong("the decimal doesn't fit"), Ok)
    }
}

/// A loop as the text gives it.
#[derive(Default)]
struct LoopBlock {
    def: Loop,
    plan: LoopPlan,
    /// The identifier each planned segment gives, where it gives one.
    named: Vec<Option<Vec<u8>>>,
    marks: Vec<bool>,
    occurrences: Option<Vec<Vec<u8>>>,
    children: Option<Vec<u32>>,
    order: Option<Vec<Item>>,
    forced: Option<Vec<bool>>,
    group_columns: Option<Vec<u32>>,
    depth: Option<Option<u32>>,
}

/// A table as the text gives it.
#[derive(Default)]
struct TableBlock {
    def: Table,
    loops: Option<Vec<u32>>,
    ancestors: Option<Vec<u32>>,
    columns: Option<u32>,
    capacity: Option<u32>,
    rows: Option<u32>,
    slots: Vec<(Slot, Cells)>,
    lines: u32,
}

/// Where a column stands in its table.
enum Slot {
    Key,
    Segment,
    Reference(u32),
    Column,
}

/// The cells of a column as rows bring them.
enum Cells {
    None,
    Raw(Option<Column>),
    Text(Vec<Option<Vec<u8>>>),
    Int(Vec<Option<i64>>, u8),
    Decimal(Vec<Option<i128>>, u8),
    Date(Vec<Option<i32>>),
    Time(Vec<Option<i32>>),
}

/// The lists whose lengths can be given.
const LISTS: [&str; 7] = ["plan", "order", "forced", "groups", "depth", "capacity", "data"];

/// The job that a text describes, or what is wrong with it.
pub fn parse(text: &[u8]) -> Result<Job, String> {
    let mut job = Job::default();
    let (mut loops, mut tables) = (Vec::<LoopBlock>::new(), Vec::<TableBlock>::new());
    let (mut spec_loops, mut spec_tables) = (0, 0);
    let mut roots = None;
    let mut lists: Vec<(&str, usize)> = Vec::new();
    /// The block that the next lines belong to.
    enum Open {
        Nothing,
        Loop,
        Table,
    }
    let mut open = Open::Nothing;
    for line in lines(text)? {
        let mut scan = Scan::new(&line);
        let start = scan.rest;
        let first = scan.word();
        match (first, &open) {
            ("version", _) => {
                let (segment, element) = (scan.text()?, scan.number()?);
                job.spec.version = Some(Version { segment, element, value: scan.text()? });
            }
            ("segment", _) => {
                let id = scan.text()?;
                job.spec.segments.0.push((id, segment_def(&mut scan)?));
            }
            ("roots", _) => roots = Some(scan.numbers()?),
            ("lists", _) => {
                while !scan.done() {
                    let name = scan.span(|byte| byte.is_ascii_alphabetic());
                    let Some(list) = LISTS.iter().find(|list| list.as_bytes() == name) else {
                        return scan.wrong("unknown list before this");
                    };
                    scan.expect(b'=')?;
                    lists.push((*list, scan.digits::<u16>()?.into()));
                }
            }
            ("loop", _) => {
                if scan.number::<usize>()? != loops.len() || spec_loops != loops.len() {
                    return scan.wrong("loops are numbered from 0 on, before those past them");
                }
                spec_loops += 1;
                let trigger = scan.text()?;
                loops.push(loop_head(&mut scan, trigger)?);
                open = Open::Loop;
            }
            ("table", _) => {
                if scan.number::<usize>()? != tables.len() || spec_tables != tables.len() {
                    return scan.wrong("tables are numbered from 0 on, before those past them");
                }
                spec_tables += 1;
                tables.push(table_head(&mut scan)?);
                open = Open::Table;
            }
            ("past", _) => {
                let loop_past = match scan.word() {
                    "loop" => true,
                    "table" => false,
                    _ => return scan.wrong("`past loop` or `past table` expected"),
                };
                let number: usize = scan.number()?;
                if number != if loop_past { loops.len() } else { tables.len() } {
                    return scan.wrong("blocks are numbered from 0 on");
                }
                if loop_past {
                    loops.push(loop_head(&mut scan, Vec::new())?);
                    open = Open::Loop;
                } else {
                    tables.push(table_head(&mut scan)?);
                    open = Open::Table;
                }
            }
            ("envelope", Open::Nothing) => envelope(&mut scan, &mut job.envelope)?,
            (_, Open::Loop) => {
                let block = loops.last_mut().expect("a loop is open");
                scan.rest = start;
                loop_line(&mut scan, block)?;
            }
            (_, Open::Table) => {
                let block = tables.last_mut().expect("a table is open");
                table_line(first, &mut scan, block)?;
            }
            _ => {
                scan.rest = start;
                return scan.wrong("unknown line");
            }
        }
        if !scan.done() {
            return scan.wrong("nothing more expected");
        }
    }
    settle_loops(&mut job, loops, spec_loops)?;
    job.spec.roots = roots.unwrap_or_else(|| default_children(&job.spec.loops, None));
    let length = |name: &str, usual: usize| {
        lists.iter().find(|(list, _)| *list == name).map_or(usual, |(_, length)| *length)
    };
    job.plan.resize(length("plan", spec_loops), LoopPlan::default());
    job.layout.order.resize(length("order", spec_loops), Vec::new());
    job.layout.forced.resize(length("forced", spec_loops), Vec::new());
    job.layout.group_columns.resize(length("groups", spec_loops), Vec::new());
    job.layout.depth.resize(length("depth", spec_loops), None);
    settle_tables(&mut job, tables, spec_tables)?;
    job.layout.capacity.resize(length("capacity", spec_tables), 1);
    job.data.resize(length("data", spec_tables), TableData::default());
    Ok(job)
}

fn envelope(scan: &mut Scan<'_>, envelope: &mut Envelope) -> Result<(), Wrong> {
    while !scan.done() {
        match scan.word() {
            "sender" => {
                envelope.sender_qualifier = scan.text()?;
                envelope.sender_id = scan.text()?;
            }
            "receiver" => {
                envelope.receiver_qualifier = scan.text()?;
                envelope.receiver_id = scan.text()?;
            }
            "application" => {
                envelope.application_sender = if scan.none() { None } else { Some(scan.text()?) };
                envelope.application_receiver = if scan.none() { None } else { Some(scan.text()?) };
            }
            "date" => envelope.date = scan.date()?,
            "time" => envelope.time = scan.time()?,
            "usage" => envelope.usage_indicator = scan.text()?,
            "control" => envelope.control_number = scan.number()?,
            "separators" => {
                scan.blanks();
                let all = scan.quoted()?;
                let &[element, component, segment, ref rest @ ..] = all.as_slice() else {
                    return scan.wrong("three or four separators expected before this");
                };
                (envelope.element, envelope.component, envelope.segment) = (element, component, segment);
                envelope.repetition = match rest {
                    [] => None,
                    [byte] => Some(*byte),
                    _ => return scan.wrong("three or four separators expected before this"),
                };
            }
            "breaks" => envelope.line_break = true,
            _ => return scan.wrong("unknown word of an envelope before this"),
        }
    }
    Ok(())
}

fn segment_def(scan: &mut Scan<'_>) -> Result<SegmentDef, Wrong> {
    let mut def = SegmentDef::default();
    while !scan.done() {
        let position = scan.digits()?;
        scan.expect(b'=')?;
        let (kind, min, max, codes) = form(scan)?;
        let mut components = Map::default();
        if scan.eat(b'{') {
            while !scan.eat(b'}') {
                let position = scan.number()?;
                scan.expect(b'=')?;
                let (kind, min, max, codes) = form(scan)?;
                components.0.push((position, ComponentDef { kind, min, max, codes }));
                scan.blanks();
            }
        }
        def.elements.0.push((position, ElementDef { kind, min, max, components, codes }));
    }
    Ok(def)
}

/// Kind, min, max and codes of an element or component.
type ElementForm = (Kind, Option<u32>, Option<u32>, Vec<Vec<u8>>);

fn form(scan: &mut Scan<'_>) -> Result<ElementForm, Wrong> {
    let kind = match scan.span(|byte| byte.is_ascii_uppercase()) {
        b"AN" => Kind::An,
        b"ID" => Kind::Id,
        b"N" => Kind::N(scan.digits()?),
        b"R" => Kind::R(scan.digits()?),
        b"DT" => Kind::Dt,
        b"TM" => Kind::Tm,
        _ => return scan.wrong("AN, ID, N0, R2, DT or TM expected before this"),
    };
    let (mut min, mut max) = (None, None);
    if scan.eat(b'/') {
        if scan.rest.first() != Some(&b'-') {
            min = Some(scan.digits()?);
        }
        scan.expect(b'-')?;
        if scan.rest.first().is_some_and(u8::is_ascii_digit) {
            max = Some(scan.digits()?);
        }
    }
    let mut codes = Vec::new();
    if scan.eat(b'(') {
        loop {
            codes.push(scan.bytes()?);
            if scan.eat(b')') {
                break;
            }
            scan.expect(b',')?;
        }
    }
    Ok((kind, min, max, codes))
}

fn loop_head(scan: &mut Scan<'_>, trigger: Vec<u8>) -> Result<LoopBlock, Wrong> {
    let mut block = LoopBlock::default();
    block.def.trigger = trigger;
    while !scan.done() {
        match scan.word() {
            "in" => block.def.parent = Some(scan.number()?),
            "absent" => block.plan.instances = Instances::Absent,
            "envelope" => block.plan.instances = Instances::Envelope,
            "rows" => block.plan.instances = Instances::Rows(scan.number()?),
            "inside" => block.plan.instances = Instances::Inside(scan.number()?),
            "groups" => block.plan.instances = Instances::Groups(scan.number()?),
            "implied" => block.plan.instances = Instances::Implied,
            "required" => block.def.usage = Usage::Required,
            "end" => block.def.end = Some(scan.text()?),
            "control" => {
                let (opener, closer, count_element) = (scan.number()?, scan.number()?, scan.number()?);
                let count = match scan.word() {
                    "segments" => Count::Segments,
                    "children" => Count::Children,
                    _ => return scan.wrong("`segments` or `children` expected before this"),
                };
                block.def.control = Some(Control { opener, closer, count_element, count });
            }
            _ => return scan.wrong("unknown word of a loop before this"),
        }
    }
    Ok(block)
}

fn loop_line(scan: &mut Scan<'_>, block: &mut LoopBlock) -> Result<(), Wrong> {
    let word = scan.word();
    let (plain, forced) = word.strip_suffix('!').map_or((word, false), |plain| (plain, true));
    let source = match plain {
        "envelope" => Source::Envelope,
        "row" => Source::Row(scan.number()?),
        "repeat" => Source::Repeat(scan.number()?),
        _ => return layout_line(word, scan, block),
    };
    let (mut named, mut occurrence) = (None, 0);
    if scan.done() && source == Source::Envelope {
        named = Some(block.def.trigger.clone());
    } else if scan.eat(b'@') {
        occurrence = scan.digits()?;
    } else {
        named = Some(scan.text()?);
    }
    let mut elements = Vec::new();
    while !scan.done() {
        let element = scan.digits()?;
        let component = if scan.eat(b'-') { Some(scan.digits()?) } else { None };
        scan.expect(b'=')?;
        let value = if scan.eat(b'c') {
            Value::Column(scan.digits()?)
        } else if scan.eat(b'g') {
            Value::Group(scan.digits()?)
        } else {
            Value::Code(scan.quoted()?)
        };
        elements.push(ElementPlan { element, component, value });
    }
    block.plan.segments.push(SegmentPlan { occurrence, source, elements });
    block.named.push(named);
    block.marks.push(forced);
    Ok(())
}

fn layout_line(word: &str, scan: &mut Scan<'_>, block: &mut LoopBlock) -> Result<(), Wrong> {
    match word {
        "occurrences" => {
            let list = block.occurrences.get_or_insert_default();
            while !scan.done() {
                list.push(scan.bytes()?);
            }
        }
        "children" => block.children = Some(scan.numbers()?),
        "order" => {
            let order = block.order.get_or_insert_default();
            while !scan.done() {
                let item =
                    if scan.eat(b'>') { Item::Loop(scan.digits()?) } else { Item::Segment(scan.digits()?) };
                order.push(item);
            }
        }
        "forced" => {
            let flags: Vec<u8> = scan.numbers()?;
            if flags.iter().any(|&flag| flag > 1) {
                return scan.wrong("flags are 0 or 1, before this");
            }
            block.forced = Some(flags.iter().map(|&flag| flag == 1).collect());
        }
        "group-columns" => block.group_columns = Some(scan.numbers()?),
        "depth" => block.depth = Some(if scan.none() { None } else { Some(scan.number()?) }),
        _ => return scan.wrong("unknown line of a loop, before this"),
    }
    Ok(())
}

fn table_head(scan: &mut Scan<'_>) -> Result<TableBlock, Wrong> {
    let mut block = TableBlock::default();
    while !scan.done() {
        match scan.word() {
            "on-segment" => block.def.segment = true,
            "repeat" => block.def.repeat = Some(Repeat { from: scan.number()?, step: scan.number()? }),
            "loops" => block.loops = Some(scan.numbers()?),
            "parent" => block.def.parent = Some(scan.number()?),
            "ancestors" => block.ancestors = Some(scan.numbers()?),
            "columns" => block.columns = Some(scan.number()?),
            "capacity" => block.capacity = Some(scan.number()?),
            _ => return scan.wrong("unknown word of a table before this"),
        }
    }
    Ok(block)
}

/// The scale behind a kind of column, 0 where there is none.
fn scale(word: &str, kind: &str) -> Option<u8> {
    match word.strip_prefix(kind)? {
        "" => Some(0),
        rest => rest.strip_prefix('.')?.parse().ok(),
    }
}

fn cells(kind: &str) -> Option<Cells> {
    Some(match kind {
        "none" => Cells::None,
        "raw" => Cells::Raw(None),
        "text" => Cells::Text(Vec::new()),
        "date" => Cells::Date(Vec::new()),
        "time" => Cells::Time(Vec::new()),
        _ => match (scale(kind, "int"), scale(kind, "dec")) {
            (Some(scale), _) => Cells::Int(Vec::new(), scale),
            (_, Some(scale)) => Cells::Decimal(Vec::new(), scale),
            _ => return None,
        },
    })
}

fn slot(word: &str) -> Option<(Slot, Cells)> {
    let (name, kind) = word.split_once(':').map_or((word, "int"), |(name, kind)| (name, kind));
    if name == "key" {
        return Some((Slot::Key, cells(kind)?));
    }
    if name == "segment" {
        return Some((Slot::Segment, cells(kind)?));
    }
    if let Some(table) = name.strip_prefix("ref") {
        return Some((Slot::Reference(table.parse().ok()?), cells(kind)?));
    }
    Some((Slot::Column, cells(word)?))
}

fn table_line(first: &str, scan: &mut Scan<'_>, block: &mut TableBlock) -> Result<(), Wrong> {
    match first {
        ":" => {
            while !scan.done() {
                let word = scan.word();
                match slot(word) {
                    Some(slot) => block.slots.push(slot),
                    None => return scan.wrong("unknown kind of column before this"),
                }
            }
        }
        "rows" => block.rows = Some(scan.number()?),
        "raw" => {
            let column = raw_column(scan)?;
            let place = block.slots.iter_mut().find_map(|(_, cells)| match cells {
                Cells::Raw(place @ None) => Some(place),
                _ => None,
            });
            match place {
                Some(place) => *place = Some(column),
                None => return scan.wrong("no column is marked raw for this one"),
            }
        }
        "|" => {
            for (_, cells) in &mut block.slots {
                cell(scan, cells)?;
            }
            block.lines += 1;
        }
        _ => return scan.wrong("unknown line of a table, before this"),
    }
    Ok(())
}

fn cell(scan: &mut Scan<'_>, cells: &mut Cells) -> Result<(), Wrong> {
    if matches!(cells, Cells::None | Cells::Raw(_)) {
        return Ok(());
    }
    let null = scan.none();
    match cells {
        Cells::None | Cells::Raw(_) => {}
        Cells::Text(list) => list.push(if null { None } else { Some(scan.text()?) }),
        Cells::Int(list, _) => list.push(if null { None } else { Some(scan.number()?) }),
        Cells::Decimal(list, scale) => list.push(if null { None } else { Some(scan.decimal(*scale)?) }),
        Cells::Date(list) => list.push(if null { None } else { Some(scan.date()?) }),
        Cells::Time(list) => list.push(if null { None } else { Some(scan.time()?) }),
    }
    Ok(())
}

fn raw_column(scan: &mut Scan<'_>) -> Result<Column, Wrong> {
    let kind = cells(scan.word());
    let word = scan.word();
    let values = match (kind, word) {
        (Some(Cells::Text(_)), "offsets") => {
            let offsets = scan.numbers()?;
            if scan.word() != "data" {
                return scan.wrong("`data` expected before this");
            }
            scan.blanks();
            Values::Binary(offsets, scan.quoted()?)
        }
        (Some(Cells::Int(_, scale)), "values") => Values::Int64(scan.numbers()?, scale),
        (Some(Cells::Decimal(_, scale)), "values") => Values::Decimal128(scan.numbers()?, scale),
        (Some(Cells::Date(_)), "values") => Values::Date32(scan.numbers()?),
        (Some(Cells::Time(_)), "values") => Values::Time32(scan.numbers()?),
        _ => return scan.wrong("a kind of column and `offsets` or `values` expected before this"),
    };
    if scan.word() != "validity" {
        return scan.wrong("`validity` expected before this");
    }
    let mut bytes = Vec::new();
    if !scan.none() {
        let hex = scan.word();
        if hex.len() % 2 == 1 {
            return scan.wrong("whole bytes expected before this");
        }
        for at in (0..hex.len()).step_by(2) {
            match u8::from_str_radix(hex.get(at..at + 2).unwrap_or(""), 16) {
                Ok(byte) => bytes.push(byte),
                Err(_) => return scan.wrong("hexadecimal digits expected before this"),
            }
        }
    }
    Ok(Column { values, validity: Validity { bytes, len: scan.number()? } })
}

/// Fills in what the blocks of loops left out.
fn settle_loops(job: &mut Job, mut blocks: Vec<LoopBlock>, loops: usize) -> Result<(), Wrong> {
    for (number, block) in blocks.iter_mut().enumerate() {
        match block.occurrences.take() {
            Some(list) => {
                for (segment, named) in block.plan.segments.iter_mut().zip(&block.named) {
                    let Some(id) = named else { continue };
                    let at = list.iter().position(|other| other == id);
                    let at = at.ok_or_else(|| format!("loop {number}: no such occurrence"))?;
                    segment.occurrence = at as u32;
                }
                block.def.occurrences = list;
            }
            None if block.named.iter().all(Option::is_some) => {
                for (at, segment) in block.plan.segments.iter_mut().enumerate() {
                    segment.occurrence = at as u32;
                }
                block.def.occurrences = block.named.iter().flatten().cloned().collect();
            }
            None if block.named.iter().all(Option::is_none) => {}
            None => return Err(format!("loop {number}: occurrences by number need `occurrences`")),
        }
    }
    job.spec.loops = blocks.iter().take(loops).map(|block| block.def.clone()).collect();
    for (number, block) in blocks.iter_mut().take(loops).enumerate() {
        let usual = default_children(&job.spec.loops, Some(number as u32));
        job.spec.loops[number].children = block.children.take().unwrap_or(usual);
    }
    for (number, block) in blocks.into_iter().enumerate() {
        let children = job.spec.loops.get(number).map_or(&[][..], |def| &def.children);
        let order = block.order.unwrap_or_else(|| default_order(block.plan.segments.len(), children));
        job.layout.order.push(order);
        job.layout.forced.push(block.forced.unwrap_or(block.marks));
        let columns = block.group_columns.unwrap_or_else(|| default_group_columns(&block.plan));
        job.layout.group_columns.push(columns);
        job.layout.depth.push(block.depth.unwrap_or_else(|| default_depth(&job.spec.loops, number)));
        job.plan.push(block.plan);
    }
    Ok(())
}

/// Fills in what the blocks of tables left out.
fn settle_tables(job: &mut Job, mut blocks: Vec<TableBlock>, tables: usize) -> Result<(), Wrong> {
    for (number, block) in blocks.iter_mut().enumerate() {
        job.layout.capacity.push(block.capacity.unwrap_or(1));
        job.data.push(table_data(number, block)?);
    }
    job.spec.tables = blocks.iter().take(tables).map(|block| block.def.clone()).collect();
    for (number, block) in blocks.into_iter().take(tables).enumerate() {
        let loops = default_loops(&job.plan, job.spec.loops.len(), number, block.def.segment);
        let ancestors = default_ancestors(&job.spec.tables, number);
        let columns = job.data[number].columns.len() as u32;
        let def = &mut job.spec.tables[number];
        def.loops = block.loops.unwrap_or(loops);
        def.ancestors = block.ancestors.unwrap_or(ancestors);
        def.columns = block.columns.unwrap_or(columns);
    }
    Ok(())
}

fn table_data(number: usize, block: &mut TableBlock) -> Result<TableData, Wrong> {
    let mut data = TableData { rows: block.rows.unwrap_or(block.lines), ..TableData::default() };
    for (slot, cells) in block.slots.drain(..) {
        let column = match cells {
            Cells::None => None,
            Cells::Raw(None) => return Err(format!("table {number}: a raw column is missing")),
            Cells::Raw(column) => column,
            Cells::Text(list) => Some(Column::binary(&list)),
            Cells::Int(list, scale) => Some(Column::int64(&list, scale)),
            Cells::Decimal(list, scale) => Some(Column::decimal(&list, scale)),
            Cells::Date(list) => Some(Column::date(&list)),
            Cells::Time(list) => Some(Column::time(&list)),
        };
        match slot {
            Slot::Key => data.row = column,
            Slot::Segment => data.segment = column,
            Slot::Reference(table) => data.refs.push((table, column)),
            Slot::Column => data.columns.push(column),
        }
    }
    Ok(data)
}
