//! Makes a spec from a job's. Tables, references and columns are named `#` and their number, so
//! that findings give the numbers back.

use super::*;
use std::collections::BTreeMap;

/// How many columns of each table have a name; the Rust reads no more than that from the list.
const NAMED_COLUMNS: usize = 32;

fn number(value: u32) -> usize {
    value as usize
}

fn text(bytes: &[u8]) -> String {
    String::from_utf8_lossy(bytes).into_owned()
}

fn kind(kind: job::Kind) -> ElementType {
    match kind {
        job::Kind::An => ElementType::An,
        job::Kind::Id => ElementType::Id,
        job::Kind::N(places) => ElementType::N(places),
        job::Kind::R(scale) => ElementType::R { scale },
        job::Kind::Dt => ElementType::Dt,
        job::Kind::Tm => ElementType::Tm,
    }
}

fn component(def: &job::ComponentDef) -> ElementDef {
    ElementDef {
        name: String::new(),
        kind: kind(def.kind),
        required: false,
        min: def.min.map(number),
        max: def.max.map(number),
        composite: BTreeMap::new(),
        codes: def.codes.iter().map(|code| text(code)).collect(),
    }
}

fn element(def: &job::ElementDef) -> ElementDef {
    let components = def.components.0.iter().map(|(at, def)| (number(*at), component(def)));
    ElementDef {
        name: String::new(),
        kind: kind(def.kind),
        required: false,
        min: def.min.map(number),
        max: def.max.map(number),
        composite: components.collect(),
        codes: def.codes.iter().map(|code| text(code)).collect(),
    }
}

fn usage(usage: job::Usage) -> Usage {
    match usage {
        job::Usage::Required => Usage::Required,
        job::Usage::Situational => Usage::Situational,
    }
}

fn occurrence(segment: &[u8]) -> OccurrenceDef {
    OccurrenceDef {
        name: String::new(),
        segment: segment.to_vec(),
        pos: 0,
        usage: Usage::Situational,
        max: None,
        qualifier: None,
        codes: BTreeMap::new(),
    }
}

fn control(rule: job::Control) -> Control {
    Control {
        opener_element: number(rule.opener),
        closer_element: number(rule.closer),
        count_element: number(rule.count_element),
        count: match rule.count {
            job::Count::Segments => ControlCount::Segments,
            job::Count::Children => ControlCount::Children,
        },
    }
}

fn ids(numbers: &[u32]) -> Vec<LoopId> {
    numbers.iter().map(|&at| LoopId(number(at))).collect()
}

fn loop_def(def: &job::Loop) -> LoopDef {
    LoopDef {
        name: String::new(),
        parent: def.parent.map(|at| LoopId(number(at))),
        trigger: Trigger { segment: def.trigger.clone(), conditions: Vec::new() },
        occurrences: def.occurrences.iter().map(|segment| occurrence(segment)).collect(),
        usage: usage(def.usage),
        max: None,
        segments: Vec::new(),
        end: def.end.clone(),
        control: def.control.map(control),
        children: ids(&def.children),
    }
}

fn column(at: usize) -> (String, ColumnSource) {
    (format!("#{at}"), ColumnSource::GroupElement { offset: 0, component: None })
}

fn table(at: usize, def: &job::Table) -> TableDef {
    TableDef {
        name: format!("#{at}"),
        reference: format!("#{at}"),
        loops: ids(&def.loops),
        segment: def.segment.then(Vec::new),
        repeat: def.repeat.map(|repeat| Repeat { from: number(repeat.from), step: number(repeat.step) }),
        columns: (0..NAMED_COLUMNS).map(column).collect(),
        parent: def.parent.map(number),
        ancestors: def.ancestors.iter().map(|&at| number(at)).collect(),
    }
}

impl LoopId {
    pub(crate) fn of(at: u32) -> LoopId {
        LoopId(number(at))
    }
}

impl Spec {
    pub(super) fn from_value(_: Value) -> Result<Spec, SpecError> {
        Err(SpecError::Json(crate::Error))
    }

    /// A job's spec.
    pub(crate) fn of(spec: &job::Spec) -> Spec {
        let segment = |(id, def): &(Vec<u8>, job::SegmentDef)| {
            let elements = def.elements.0.iter().map(|(at, def)| (number(*at), element(def)));
            (id.clone(), SegmentDef { elements: elements.collect() })
        };
        Spec {
            name: String::new(),
            loops: spec.loops.iter().map(loop_def).collect(),
            roots: ids(&spec.roots),
            segments: spec.segments.0.iter().map(segment).collect(),
            tables: spec.tables.iter().enumerate().map(|(at, def)| table(at, def)).collect(),
            balancing: Vec::new(),
            version: spec.version.as_ref().map(|version| DeclaredVersion {
                segment: version.segment.clone(),
                element: number(version.element),
                values: vec![version.value.clone()],
            }),
            source: Value::Null,
        }
    }
}
