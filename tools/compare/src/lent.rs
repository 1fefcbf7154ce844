//! Lists to lend. Each stands between two stretches that nobody may touch and is filled with a
//! pattern, so that it tells what was written and where.

use std::fmt::Debug;

/// Items before and behind what is lent.
const BESIDE: usize = 64;

/// A list to lend, with its surroundings.
pub struct Lent<T> {
    all: Vec<T>,
    untouched: Vec<T>,
}

impl<T: Clone + PartialEq + Debug> Lent<T> {
    /// A list of a length; the pattern is to differ from what a writer puts there.
    pub fn new(length: usize, pattern: impl Fn(usize) -> T) -> Lent<T> {
        let all: Vec<T> = (0..length + 2 * BESIDE).map(pattern).collect();
        Lent { untouched: all.clone(), all }
    }

    /// What is lent.
    pub fn list(&mut self) -> &mut [T] {
        let end = self.all.len() - BESIDE;
        &mut self.all[BESIDE..end]
    }

    /// How a list differs from what it should be: the items at the front, as many as fit, the rest untouched
    /// (docs/RULES.md, "Answer 7").
    pub fn differs(&self, name: &str, items: &[T]) -> Option<String> {
        let room = self.all.len() - 2 * BESIDE;
        let mut wanted = self.untouched.clone();
        for (place, item) in wanted[BESIDE..BESIDE + room].iter_mut().zip(items) {
            *place = item.clone();
        }
        let at = self.all.iter().zip(&wanted).position(|(a, b)| a != b)?;
        let place = at as i64 - BESIDE as i64;
        let part = if place < 0 || place >= room as i64 {
            "outside of it"
        } else if at - BESIDE >= items.len() {
            "past what belongs there"
        } else {
            "inside"
        };
        Some(format!("{name} of {room}, {part}: {:?} at {place}, not {:?}", self.all[at], wanted[at]))
    }
}

/// The lengths to lend for four counts: exact, one over, each one short alone, none of one and of all.
pub fn lengths(counts: [usize; 4]) -> Vec<[usize; 4]> {
    let mut all = vec![counts, counts.map(|count| count + 1), [0; 4]];
    for (at, count) in counts.into_iter().enumerate() {
        for shorter in [count.saturating_sub(1), 0, count / 2] {
            let mut one = counts;
            one[at] = shorter;
            all.push(one);
        }
    }
    all.sort_unstable();
    all.dedup();
    all
}

/// 0, or 7 where a list is shorter than its count.
pub fn answer(counts: [usize; 4], lengths: [usize; 4]) -> u8 {
    if counts.iter().zip(lengths).any(|(count, length)| length < *count) { 7 } else { 0 }
}
