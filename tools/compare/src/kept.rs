//! Nothing is lost of what `write` gives (docs/RULES.md, "What is promised"), by a reader of the tools' own. Of a finished
//! job with a complete plan:
//!
//! 1. every row stops once, in the walk's order, or never where it or a row above it lacks its parent;
//! 2. without a delimiter finding the document has one reading, and that is the due segments, each with the planned
//!    texts at its places and nothing elsewhere;
//! 3. there is a delimiter finding exactly when a cell or envelope text of a due segment holds a separator.
//!
//! Segments, texts and stops that are due are those of `job::due`, which is written from the rules.

use crate::subject::{Agreed, Subject, Writing};
use generate::Kind;
use job::Job;
use job::due::{Due, Made, Segment, Sort, due};
use job::grammar::{Read, reading, readings};
use job::hanging::Hanging;
use native::{Lists, Room};
use std::collections::{BTreeSet, HashMap};

/// `write` against what is promised.
pub struct Kept<F>(pub F);

impl Kept<Writing> {
    /// With the proved `write`.
    pub fn proved() -> Self {
        Kept(native::write)
    }
}

/// Documents longer than this are left out, and so are longer lists.
const MOST: u64 = 1 << 22;

/// Documents up to this are cut in every way.
const SHORT: usize = 600;

/// The kind of a delimiter finding.
const DELIMITER: u64 = 4;

impl<F: Fn(&[u8], Lists) -> u32 + Sync> Subject for Kept<F> {
    fn run(&self, bytes: &[u8]) -> Result<Agreed, String> {
        let job = match job::check(bytes) {
            Ok(job) => job,
            Err(refusal) => return Ok(Agreed { answer: refusal.number(), seen: Vec::new() }),
        };
        if let Some(condition) = job::complete::gap(&job) {
            return Ok(Agreed { answer: 0, seen: vec![job::complete::broken(condition)] });
        }
        let (answer, room) = self.lend(bytes)?;
        if answer != 0 {
            return Ok(Agreed { answer, seen: vec!["complete, not finished".to_string()] });
        }
        let Room { document, segments, findings, stops, counts } = room;
        let [length, written, found, stopped] = counts.map(|count| count as usize);
        let hanging = Hanging::of(&job);
        let due = due(&job, &hanging);
        stops_right(&job, &hanging, &due, &stops[..stopped * 3])?;
        sources_right(&due, &segments[..written * 3])?;
        let found = findings[..found].iter().any(|finding| finding[0] == DELIMITER);
        let held = due.segments.iter().any(|segment| segment.holds_separator(&job.envelope));
        match (found, held) {
            (true, false) => return Err("a delimiter finding, and no text holds a separator".to_string()),
            (false, true) => return Err("a text holds a separator, and there is no finding".to_string()),
            (true, true) => {}
            (false, false) => reads(&job, &due, &document[..length])?,
        }
        let seen = seen(&job, &hanging, &due, found);
        Ok(Agreed { answer: 0, seen: seen.into_iter().map(str::to_string).collect() })
    }

    fn kinds(&self) -> &'static [(Kind, u64)] {
        &Kind::PLANS
    }
}

impl<F: Fn(&[u8], Lists) -> u32> Kept<F> {
    /// The answer, with lists as long as the call without any room asks for; 7 where they would be very long.
    fn lend(&self, bytes: &[u8]) -> Result<(u8, Room), String> {
        let mut room = Room::new(0, 0);
        let answer = (self.0)(bytes, room.lists());
        let [length, items @ ..] = room.counts;
        let items = items.into_iter().max().unwrap_or(0);
        if answer != 7 || length > MOST || items > MOST {
            return Ok((answer as u8, room));
        }
        room = Room::new(length as usize, items as usize);
        match (self.0)(bytes, room.lists()) {
            0 => Ok((0, room)),
            number => Err(format!("{number}, with the lists that 7 asked for")),
        }
    }
}

/// The stops are those that are due, in order: each row one, or none where it or a row above it lacks its parent.
fn stops_right(job: &Job, hanging: &Hanging, due: &Due, stops: &[u64]) -> Result<(), String> {
    let mut times: HashMap<(u64, u64), usize> = HashMap::new();
    for stop in stops.chunks(3) {
        *times.entry((stop[1], stop[2])).or_default() += 1;
    }
    for (table, data) in (0..).zip(&job.data) {
        for row in 0..data.rows as usize {
            let wanted = usize::from(!hanging.adrift(job, (table, row)));
            let got = times.remove(&(u64::from(table), row as u64)).unwrap_or(0);
            if got != wanted {
                return Err(format!("row {row} of table {table} stops {got} times, not {wanted}"));
            }
        }
    }
    if let Some((table, row)) = times.into_keys().next() {
        return Err(format!("a stop at row {row} of table {table}, which is not there"));
    }
    let wanted = due.stops.iter().map(|&(at, (table, row))| [u64::from(at), u64::from(table), row as u64]);
    match stops.chunks(3).zip(wanted).position(|(got, wanted)| got != wanted) {
        Some(at) => Err(format!("stop {at} is {:?}, not {:?}", &stops[at * 3..][..3], due.stops[at])),
        None if stops.len() != due.stops.len() * 3 => Err("more or fewer stops than are due".to_string()),
        None => Ok(()),
    }
}

/// The trace has the due segments, each with the row it comes from, or the envelope.
fn sources_right(due: &Due, traced: &[u64]) -> Result<(), String> {
    if traced.len() != due.segments.len() * 3 {
        return Err(format!("{} segments are traced, {} due", traced.len() / 3, due.segments.len()));
    }
    for (at, (traced, segment)) in traced.chunks(3).zip(&due.segments).enumerate() {
        let wanted = segment.row.map_or([0, 0], |(table, row)| [u64::from(table) + 1, row as u64]);
        if traced[1..] != wanted {
            return Err(format!("segment {at} comes from {:?}, not {wanted:?}", &traced[1..]));
        }
    }
    Ok(())
}

/// The document's one reading is the due segments.
fn reads(job: &Job, due: &Due, document: &[u8]) -> Result<(), String> {
    let read = reading(document, &job.envelope).ok_or("the grammar doesn't cover the document")?;
    if document.len() <= SHORT && readings(document, &job.envelope) != 1 {
        return Err("more than one reading".to_string());
    }
    if read.len() != due.segments.len() {
        return Err(format!("{} segments are read, {} due", read.len(), due.segments.len()));
    }
    for (at, (read, segment)) in read.iter().zip(&due.segments).enumerate() {
        holds(job, read, segment).map_err(|how| {
            let id = String::from_utf8_lossy(&segment.id);
            format!("segment {at}, {id} ({:?}): {how}", segment.sort)
        })?;
    }
    Ok(())
}

/// A segment that is read has the identifier, the text of each planned place, and nothing elsewhere.
fn holds(job: &Job, read: &Read, due: &Segment) -> Result<(), String> {
    if read.id != due.id {
        return Err(format!("read as {:?}", String::from_utf8_lossy(read.id)));
    }
    if read.elements.last().is_some_and(|last| last.is_empty()) {
        return Err("an empty element at its end".to_string());
    }
    let mut wanted: HashMap<(u32, Option<u32>), &[u8]> = HashMap::new();
    for place in &due.places {
        wanted.entry((place.element, place.component)).or_insert(&place.text);
    }
    let cut: BTreeSet<u32> =
        due.places.iter().filter(|place| place.component.is_some()).map(|place| place.element).collect();
    let mut got: HashMap<(u32, Option<u32>), &[u8]> = HashMap::new();
    for (element, text) in (1..).zip(&read.elements) {
        if cut.contains(&element) {
            let components = read.components(element, &job.envelope);
            if components.len() > 1 && components.last().is_some_and(|last| last.is_empty()) {
                return Err(format!("an empty component at the end of element {element}"));
            }
            got.extend((1..).zip(components).map(|(at, text)| ((element, Some(at)), text)));
        } else {
            got.insert((element, None), text);
        }
    }
    let places: BTreeSet<(u32, Option<u32>)> = wanted.keys().chain(got.keys()).copied().collect();
    for place in places {
        let text = |texts: &HashMap<_, &[u8]>| {
            String::from_utf8_lossy(texts.get(&place).copied().unwrap_or_default()).into_owned()
        };
        let same =
            wanted.get(&place).copied().unwrap_or_default() == got.get(&place).copied().unwrap_or_default();
        if !same {
            return Err(format!("{:?} at {place:?}, not {:?}", text(&got), text(&wanted)));
        }
    }
    Ok(())
}

/// What a job had, for the summary.
fn seen(job: &Job, hanging: &Hanging, due: &Due, found: bool) -> BTreeSet<&'static str> {
    let mut seen = BTreeSet::from(["complete"]);
    seen.insert(if found { "complete, delimiter finding" } else { "complete, read back" });
    if (0..)
        .zip(&job.data)
        .any(|(table, data)| (0..data.rows as usize).any(|row| hanging.adrift(job, (table, row))))
    {
        seen.insert("complete, rows without parent");
    }
    if found {
        return seen;
    }
    for segment in &due.segments {
        seen.insert(match segment.sort {
            Sort::Trigger => "read back, trigger",
            Sort::Row => "read back, row segment",
            Sort::Repeat => "read back, repeat segment",
            Sort::Closer => "read back, closer",
        });
        for place in &segment.places {
            if place.component.is_some() {
                seen.insert("read back, component");
            }
            seen.insert(match place.made {
                Made::Null => "read back, null",
                Made::Bytes => "read back, bytes",
                Made::Integer => "read back, integer",
                Made::Decimal => "read back, decimal",
                Made::Date => "read back, date",
                Made::Time => "read back, time",
                Made::NotWritable => "read back, not writable",
                Made::Code => "read back, code",
                Made::Envelope => "read back, envelope text",
                Made::Moment => "read back, envelope date or time",
                Made::Separator => "read back, separator as field",
                Made::ControlNumber => "read back, control number",
                Made::Count => "read back, count",
            });
        }
    }
    seen
}
