//! What the patched lines note.

use std::cell::RefCell;

/// What a run noted.
#[derive(Debug, Clone, Default)]
pub struct Notes {
    pub instances: u64,
    /// By loop, as far as one was entered.
    pub entered: Vec<u64>,
    /// Loop, table, row.
    pub stops: Vec<(usize, usize, usize)>,
    /// By missing parent, mismatch and row out of order: the table its name stands for.
    pub numbers: Vec<usize>,
    /// By finding on a value: the place it fills.
    pub places: Vec<(Vec<u8>, usize, Option<usize>)>,
    /// Whether a counter went on from its highest number.
    pub counter_at_highest: bool,
    pub work: u64,
}

/// How far a run may go.
#[derive(Debug, Clone, Copy)]
pub struct Bounds {
    pub instances: u64,
    pub work: u64,
    /// Bytes of the document.
    pub length: usize,
    /// Whether a counter goes on at 0 from its highest number; the Rust's stays there.
    pub wrap: bool,
}

/// Why a run was given up.
#[derive(Debug, Clone, Copy, PartialEq, Eq)]
pub enum Over {
    Instances,
    Work,
}

struct State {
    bounds: Bounds,
    notes: Notes,
}

thread_local! {
    static STATE: RefCell<State> = RefCell::new(State {
        bounds: Bounds { instances: 0, work: 0, length: 0, wrap: false },
        notes: Notes::default(),
    });
}

fn with<T>(act: impl FnOnce(&mut State) -> T) -> T {
    STATE.with(|state| act(&mut state.borrow_mut()))
}

fn give_up(over: Over) -> ! {
    std::panic::resume_unwind(Box::new(over))
}

/// Starts a run's notes.
pub fn start(bounds: Bounds) {
    with(|state| *state = State { bounds, notes: Notes::default() });
}

/// Ends a run's notes.
pub fn take() -> Notes {
    with(|state| std::mem::take(&mut state.notes))
}

pub fn instance(number: usize) {
    let over = with(|state| {
        state.notes.instances += 1;
        if state.notes.entered.len() <= number {
            state.notes.entered.resize(number + 1, 0);
        }
        state.notes.entered[number] += 1;
        state.notes.instances > state.bounds.instances
    });
    if over {
        give_up(Over::Instances);
    }
}

pub fn work(steps: usize) {
    let over = with(|state| {
        state.notes.work += steps as u64;
        state.notes.work > state.bounds.work
    });
    if over {
        give_up(Over::Work);
    }
}

pub fn length(bytes: usize) {
    if with(|state| bytes > state.bounds.length) {
        give_up(Over::Work);
    }
}

pub fn stop(number: usize, table: usize, row: usize) {
    with(|state| state.notes.stops.push((number, table, row)));
}

pub fn number(table: usize) {
    with(|state| state.notes.numbers.push(table));
}

pub fn place(segment: &[u8], element: usize, component: Option<usize>) {
    with(|state| state.notes.places.push((segment.to_vec(), element, component)));
}

pub fn next(counter: u64) -> u64 {
    with(|state| {
        state.notes.counter_at_highest |= counter == u64::MAX;
        if state.bounds.wrap { counter.wrapping_add(1) } else { counter.saturating_add(1) }
    })
}
