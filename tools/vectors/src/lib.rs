//! Bad input with the answers of `job::check`, in the form that the program `verdicts` reads, and
//! what it has to print.
//!
//! The form is a row of records, numbers little-endian, an answer the digit of a refusal:
//!
//! ```text
//! J length:4 bytes        the job that the records behind it speak of
//! T answers               every length, from none to all of the job: an answer each
//! F mask answers          every byte in turn, with the mask's bits turned over
//! P four bytes, answers   these bytes put at every place in turn
//! S pieces answer         a byte string made of pieces: C from:4 length:4 of the job, B length:4 bytes,
//!                         R length:4 byte (one byte repeated); a point ends them
//! N length:1 text         ends a group: its name, and how often each answer came
//! ```
//!
//! A group prints its name and how often 0 to 5 were answered. The program prints what it counted,
//! and a line for each answer that isn't the wanted one; at the end of the input it prints `end`.

mod content;
mod files;
mod pieces;
mod replay;

pub use content::{Group, groups};
pub use files::program;
pub use replay::replay;

/// The refusal of a byte string by the tools' own reading of the rules, 0 for none.
pub fn answer(bytes: &[u8]) -> u8 {
    job::check(bytes).map_or_else(|refusal| refusal.number(), |_| 0)
}

/// The records as they are written, and the lines that they bring.
#[derive(Default)]
pub struct Vectors {
    pub input: Vec<u8>,
    pub output: String,
    job: Vec<u8>,
    counts: [u64; 6],
}

impl Vectors {
    /// Everything there is.
    pub fn all() -> Vectors {
        let mut all = Vectors::default();
        for group in groups() {
            all.group(group);
        }
        all.output.push_str("end\n");
        all
    }

    fn group(&mut self, group: Group) {
        match group {
            Group::Job(bytes) => self.set_job(bytes),
            Group::Lengths => self.lengths(),
            Group::Flips(masks) => masks.iter().for_each(|mask| self.flips(*mask)),
            Group::Stamp(bytes) => self.stamp(bytes),
            Group::Strings(all) => all.iter().for_each(|bytes| self.string(bytes)),
            Group::Name(name) => self.name(&name),
        }
    }

    fn number(&mut self, number: usize) {
        self.input.extend_from_slice(&(number as u32).to_le_bytes());
    }

    fn answer(&mut self, bytes: &[u8]) {
        let answer = answer(bytes);
        self.counts[usize::from(answer)] += 1;
        self.input.push(b'0' + answer);
    }

    fn set_job(&mut self, bytes: Vec<u8>) {
        self.input.push(b'J');
        self.number(bytes.len());
        self.input.extend_from_slice(&bytes);
        self.job = bytes;
    }

    fn lengths(&mut self) {
        self.input.push(b'T');
        let job = self.job.clone();
        for length in 0..=job.len() {
            self.answer(&job[..length]);
        }
    }

    fn flips(&mut self, mask: u8) {
        self.input.extend_from_slice(&[b'F', mask]);
        let mut job = self.job.clone();
        for at in 0..job.len() {
            job[at] ^= mask;
            self.answer(&job);
            job[at] ^= mask;
        }
    }

    fn stamp(&mut self, bytes: [u8; 4]) {
        self.input.push(b'P');
        self.input.extend_from_slice(&bytes);
        for at in 0..self.job.len().saturating_sub(3) {
            let mut job = self.job.clone();
            job[at..at + 4].copy_from_slice(&bytes);
            self.answer(&job);
        }
    }

    fn string(&mut self, bytes: &[u8]) {
        self.input.push(b'S');
        pieces::write(&self.job, bytes, &mut self.input);
        self.input.push(b'.');
        self.answer(bytes);
    }

    fn name(&mut self, name: &str) {
        self.input.push(b'N');
        self.input.push(u8::try_from(name.len()).expect("a short name"));
        self.input.extend_from_slice(name.as_bytes());
        self.output.push_str(&line(name, &self.counts));
        self.counts = [0; 6];
    }
}

/// What a group prints.
fn line(name: &str, counts: &[u64; 6]) -> String {
    let counts: Vec<String> = counts.iter().map(u64::to_string).collect();
    format!("{name}: {}\n", counts.join(" "))
}
