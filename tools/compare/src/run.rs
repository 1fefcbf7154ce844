//! The jobs of a seed through both sides.

use crate::smallest::smallest;
use crate::subject::Subject;
use generate::{Kind, Sample, fixed, sample_of};
use std::collections::BTreeMap;
use std::fmt::Write as _;
use std::time::{Duration, Instant};

/// What was seen.
#[derive(Default)]
pub struct Summary {
    /// By kind: how often each answer came, and last how often the sides differed.
    kinds: BTreeMap<Kind, [u64; 9]>,
    seen: BTreeMap<String, u64>,
    first: Option<Difference>,
}

/// A byte string on which the sides differ, and its place in the run.
struct Difference {
    number: u64,
    label: String,
    bytes: Vec<u8>,
}

/// Runs the fixed list, then so many samples of a seed, or fewer where the time is up.
pub fn run(subject: &dyn Subject, count: u64, seed: u64, threads: u64, time: Duration) -> Summary {
    let start = Instant::now();
    let fixed = fixed();
    let known = fixed.len() as u64;
    let part = |first: u64| {
        let mut summary = Summary::default();
        for number in (first..known + count).step_by(threads as usize) {
            if start.elapsed() > time {
                break;
            }
            match fixed.get(number as usize) {
                Some(sample) => summary.note(subject, number, "fixed list", sample),
                None => {
                    let number = number - known;
                    let title = format!("seed {seed}, number {number}");
                    summary.note(subject, known + number, &title, &sample_of(subject.kinds(), seed, number));
                }
            }
        }
        summary
    };
    let part = &part;
    let mut summary = Summary::default();
    std::thread::scope(|scope| {
        let parts: Vec<_> = (0..threads).map(|first| scope.spawn(move || part(first))).collect();
        for part in parts {
            summary.merge(part.join().expect("a part of the comparison"));
        }
    });
    summary
}

impl Summary {
    fn note(&mut self, subject: &dyn Subject, number: u64, title: &str, sample: &Sample) {
        let row = self.kinds.entry(sample.kind).or_default();
        match subject.run(&sample.bytes) {
            Ok(agreed) => {
                row[usize::from(agreed.answer)] += 1;
                for seen in agreed.seen {
                    *self.seen.entry(seen).or_default() += 1;
                }
            }
            Err(_) => {
                row[8] += 1;
                if self.first.as_ref().is_none_or(|first| number < first.number) {
                    let label = format!("{title}, {} ({})", sample.kind.name(), sample.name);
                    self.first = Some(Difference { number, label, bytes: sample.bytes.clone() });
                }
            }
        }
    }

    fn merge(&mut self, other: Summary) {
        for (kind, row) in other.kinds {
            let mine = self.kinds.entry(kind).or_default();
            for (mine, more) in mine.iter_mut().zip(row) {
                *mine += more;
            }
        }
        for (name, count) in other.seen {
            *self.seen.entry(name).or_default() += count;
        }
        let number = |first: &Option<Difference>| first.as_ref().map_or(u64::MAX, |first| first.number);
        if number(&other.first) < number(&self.first) {
            self.first = other.first;
        }
    }

    /// How many there were.
    pub fn samples(&self) -> u64 {
        self.kinds.values().flatten().sum()
    }

    /// How often the sides differed.
    pub fn differing(&self) -> u64 {
        self.kinds.values().map(|row| row[8]).sum()
    }

    /// A line a kind of job, and a line for all.
    pub fn table(&self) -> String {
        let mut text = format!("{:28} {:>8}", "kind", "samples");
        for answer in ["0", "1", "2", "3", "4", "5", "6", "7", "differ"] {
            let _ = write!(text, " {answer:>7}");
        }
        text.push('\n');
        let mut total = [0; 9];
        for (kind, row) in &self.kinds {
            text.push_str(&line(kind.name(), row));
            for (total, more) in total.iter_mut().zip(row) {
                *total += more;
            }
        }
        text.push_str(&line("all", &total));
        for (name, count) in &self.seen {
            let _ = writeln!(text, "{name:28} {count:>8}");
        }
        text
    }

    /// The first difference, with the smallest byte string that still has one.
    pub fn difference(&self, subject: &dyn Subject) -> Option<String> {
        let first = self.first.as_ref()?;
        let small = smallest(&first.bytes, |bytes| subject.run(bytes).is_err());
        let how = |bytes: &[u8]| subject.run(bytes).err().unwrap_or_default();
        let mut text = format!("{}: {}\n", first.label, how(&first.bytes));
        let _ = writeln!(text, "smallest, {} bytes: {}", small.len(), how(&small));
        match job::decode(&small) {
            Ok(job) => text.push_str(&job::print(&job)),
            Err(_) => text.push_str(&hex(&small)),
        }
        Some(text)
    }
}

fn line(name: &str, row: &[u64; 9]) -> String {
    let mut text = format!("{name:28} {:>8}", row.iter().sum::<u64>());
    for count in row {
        let _ = write!(text, " {count:>7}");
    }
    text + "\n"
}

fn hex(bytes: &[u8]) -> String {
    let row = |row: &[u8]| row.iter().map(|byte| format!("{byte:02x}")).collect::<Vec<_>>().join(" ") + "\n";
    bytes.chunks(32).map(row).collect()
}
