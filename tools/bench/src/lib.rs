//! Jobs to time, and the time of a call.

#[cfg(feature = "oracle")]
pub mod writing;

use generate::limits;
use job::{Column, ComponentDef, ElementDef, Item, Job, Loop, Map, SegmentDef, TableData, encode};
use std::hint::black_box;
use std::time::{Duration, Instant};

const LONGEST: usize = 65_536;
const LISTING: &str = include_str!("../../samples/listing.txt");

/// The time of a call, over as many as fit into a length of time.
pub fn nanoseconds(length: Duration, mut call: impl FnMut() -> u32) -> f64 {
    let start = Instant::now();
    let mut calls = 0u64;
    while start.elapsed() < length {
        black_box(call());
        calls += 1;
    }
    start.elapsed().as_nanos() as f64 / calls as f64
}

/// Small and usual jobs, and some of 65,536 bytes or little less, of different make.
pub fn jobs() -> Vec<(&'static str, Vec<u8>)> {
    let listing = job::parse(LISTING.as_bytes()).expect("the listing is a job");
    let mut text = generate::remit::sample();
    let bytes = limits::limits().into_iter().find(|limit| limit.name == "bytes").expect("a limit");
    (bytes.set)(&mut text, LONGEST as u32);
    vec![
        ("the listing", encode(&listing)),
        ("the remittance", encode(&generate::remit::sample())),
        ("full: one long text", encode(&text)),
        ("full: columns of numbers", filled(|job, size| job.data = numbers(size))),
        ("full: element definitions", filled(|job, size| job.spec.segments = definitions(size, 0))),
        ("full: component definitions", filled(|job, size| job.spec.segments = definitions(size, 8))),
        ("full: codes", filled(codes)),
        ("full: a planned segment", filled(elements)),
        ("full: one child again and again", filled(|job, size| below(job).children = vec![31; size])),
        ("full: children, the last again", filled(|job, size| below(job).children = rising(1, size))),
        ("full: children asked by each child", filled(asked)),
        ("full: children, and an order", filled(children_and_order)),
        ("full: roots, the last again", filled(|job, size| forest(job).roots = rising(0, size))),
        ("full: 32 roots, the last again", filled(|job, size| apart(job).roots = rising(0, size))),
        ("full: one root again and again", filled(|job, size| forest(job).roots = vec![0; size])),
        ("full: a table's loops", filled(|job, size| forest(job).tables[0].loops = vec![31; size])),
        ("full: an order of one loop", filled(|job, size| ordered(job, vec![Item::Loop(31); size]))),
        ("full: an order of loops, segments", filled(loops_then_segments)),
        ("full: an order of segments, loops", filled(segments_then_loops)),
        ("full: deep loops, occurrences", filled(deep)),
        ("full: empty orders", filled(|job, size| job.layout.order = vec![Vec::new(); size])),
    ]
}

/// Loop numbers that rise to 31, which then stands again and again.
fn rising(first: u32, size: usize) -> Vec<u32> {
    (first..).map(|at| at.min(31)).take(size).collect()
}

/// The longest job of a make that has 65,536 bytes at most.
fn filled(make: impl Fn(&mut Job, usize)) -> Vec<u8> {
    let of = |size| {
        let mut job = generate::remit::sample();
        make(&mut job, size);
        encode(&job)
    };
    let (mut low, mut high) = (0, LONGEST);
    while low + 1 < high {
        let middle = (low + high) / 2;
        if of(middle).len() <= LONGEST { low = middle } else { high = middle }
    }
    of(low)
}

/// Sixteen tables of 32 columns, with so many numbers in all.
fn numbers(size: usize) -> Vec<TableData> {
    let column = |at: usize| {
        let rows = size / 512 + usize::from(at < size % 512);
        Some(Column::int64(&vec![Some(1); rows], 2))
    };
    let table = |table: usize| TableData {
        columns: (0..32).map(|at| column(table * 32 + at)).collect(),
        ..TableData::default()
    };
    (0..16).map(table).collect()
}

/// So many elements, in segments of 255 at most, each with components.
fn definitions(size: usize, components: u32) -> Map<Vec<u8>, SegmentDef> {
    let component = ComponentDef { min: Some(1), max: Some(80), ..ComponentDef::default() };
    let components = Map((1..=components).map(|at| (at, component.clone())).collect());
    let element = ElementDef { min: Some(1), max: Some(80), components, ..ElementDef::default() };
    let segment = |at: usize| {
        let count = (size - at * 255).min(255) as u32;
        let elements = Map((1..=count).map(|at| (at, element.clone())).collect());
        (format!("{at:03}").into_bytes(), SegmentDef { elements })
    };
    Map((0..size.div_ceil(255)).map(segment).collect())
}

fn codes(job: &mut Job, size: usize) {
    job.spec.segments.0[0].1.elements.0[0].1.codes = vec![b"HC".to_vec(); size];
}

fn elements(job: &mut Job, size: usize) {
    let element = job.plan[6].segments[0].elements[0].clone();
    job.plan[6].segments[0].elements = vec![element; size];
}

/// 32 loops: the first is the root, the others its children; nothing is planned.
fn forest(job: &mut Job) -> &mut job::Spec {
    let def = |parent| Loop { parent, trigger: b"ZZ".to_vec(), ..Loop::default() };
    job.spec.loops = vec![def(Some(0)); 32];
    job.spec.loops[0] = Loop { children: (1..32).collect(), ..def(None) };
    job.plan.clear();
    job.layout.order.clear();
    &mut job.spec
}

/// The root of the 32 loops.
fn below(job: &mut Job) -> &mut Loop {
    &mut forest(job).loops[0]
}

/// 32 roots.
fn apart(job: &mut Job) -> &mut job::Spec {
    let spec = forest(job);
    spec.loops = vec![Loop { parent: None, ..spec.loops[1].clone() }; 32];
    spec
}

/// 32 loops, the last one the root: one of its children again and again, then the others.
fn asked(job: &mut Job, size: usize) {
    let spec = forest(job);
    spec.loops = vec![Loop { parent: Some(31), ..spec.loops[1].clone() }; 32];
    spec.loops[31].parent = None;
    spec.loops[31].children = (0..size as u32).map(|_| 30).chain(0..30).collect();
    spec.roots = vec![31];
}

/// The root's children, the last again and again, and an order of them all.
fn children_and_order(job: &mut Job, size: usize) {
    ordered(job, (1..32).map(Item::Loop).collect());
    job.spec.loops[0].children = rising(1, size);
}

fn ordered(job: &mut Job, order: Vec<Item>) {
    forest(job);
    job.layout.order = vec![order];
}

fn loops_then_segments(job: &mut Job, size: usize) {
    let loops = (1..32).map(Item::Loop);
    ordered(job, loops.chain((0..size as u32).map(Item::Segment)).collect());
}

fn segments_then_loops(job: &mut Job, size: usize) {
    let loops = (1..32).map(Item::Loop);
    ordered(job, (0..size as u32).map(Item::Segment).chain(loops).collect());
}

/// 32 loops below each other, the last one the root, each with 32 occurrences; one order of segments.
fn deep(job: &mut Job, size: usize) {
    forest(job);
    for (at, def) in job.spec.loops.iter_mut().enumerate() {
        let at = at as u32;
        def.parent = (at < 31).then_some(at + 1);
        def.children = at.checked_sub(1).into_iter().collect();
        def.occurrences = vec![b"ZZ".to_vec(); 32];
    }
    job.spec.roots = vec![31];
    job.layout.order =
        (0..32).map(|at: u32| at.checked_sub(1).into_iter().map(Item::Loop).collect()).collect();
    job.layout.order[31].extend((0..size as u32).map(Item::Segment));
}
