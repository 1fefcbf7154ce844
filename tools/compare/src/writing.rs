//! `write` beside the Rust's `nest` and `Emitter::run`.

use crate::lent::{Lent, answer, lengths};
use crate::records;
use crate::subject::{Agreed, Subject, Writing};
use native::Lists;
use oracle::{Answer, Bound, Outcome};

/// The answer, the counts and all four lists, lent in many lengths, beside document, findings, trace and
/// stops of the Rust.
pub struct Write<F>(pub F);

impl Write<Writing> {
    /// With the proved `write`.
    pub fn proved() -> Self {
        Write(native::write)
    }
}

/// How many numbers an item of each list takes; findings are records of their own.
const WIDTHS: [usize; 4] = [1, 3, 1, 3];

impl<F: Fn(&[u8], Lists) -> u32 + Sync> Subject for Write<F> {
    fn run(&self, bytes: &[u8]) -> Result<Agreed, String> {
        let outcome = match oracle::answer(bytes, Bound::USUAL) {
            Answer::Done(outcome) => outcome,
            Answer::Refused(number) => {
                self.lend(bytes, u32::from(number), None, [7, 9, 2, 9])?;
                return Ok(Agreed { answer: number, seen: Vec::new() });
            }
            Answer::GivenUp => return Ok(not_compared("given up, it takes too long")),
            Answer::Panicked(_) => return Ok(not_compared("the Rust panics")),
        };
        let counts = outcome.counts().map(|count| count as usize);
        for items in lengths(counts) {
            let number = u32::from(answer(counts, items));
            let whole = [0, 1, 2, 3].map(|at| items[at] * WIDTHS[at]);
            self.lend(bytes, number, Some(&outcome), whole)?;
            // Numbers past the last whole place are no place.
            self.lend(bytes, number, Some(&outcome), [whole[0], whole[1] + 2, whole[2], whole[3] + 1])?;
        }
        Ok(Agreed { answer: 0, seen: seen(&outcome) })
    }
}

fn not_compared(why: &str) -> Agreed {
    Agreed { answer: 0, seen: vec![format!("not compared: {why}")] }
}

fn seen(outcome: &Outcome) -> Vec<String> {
    let mut seen = records::kinds(&outcome.findings);
    if outcome.counter_at_highest {
        seen.push("counter at its highest".to_string());
    }
    if outcome.findings.is_empty() {
        seen.push("no finding".to_string());
    }
    seen
}

impl<F: Fn(&[u8], Lists) -> u32> Write<F> {
    /// A call with lists of four lengths: the answer, the counts, and what each list is to hold as far as
    /// whole items fit. A refused job (1 to 6) leaves everything as it was.
    fn lend(
        &self,
        bytes: &[u8],
        number: u32,
        outcome: Option<&Outcome>,
        lengths: [usize; 4],
    ) -> Result<(), String> {
        let mut document = Lent::new(lengths[0], |at| 0x80 ^ at as u8);
        let pattern = |at: usize| 0x5a5a_0000_0000_0000 + at as u64;
        let [mut segments, mut stops] = [1, 3].map(|list| Lent::new(lengths[list], pattern));
        let mut findings = Lent::new(lengths[2], |at| [pattern(at); 10]);
        let mut counts = Lent::new(4, |at| 0xa5a5_0000_0000_0000 + at as u64);
        let lists = Lists {
            document: document.list(),
            segments: segments.list(),
            findings: findings.list(),
            stops: stops.list(),
            counts: counts.list(),
        };
        let got = (self.0)(bytes, lists);
        if got != number {
            return Err(format!("write gives {got}, the Rust {number}, with lists of {lengths:?}"));
        }
        let fitting = |numbers: Vec<u64>, list: usize| {
            let room = lengths[list] / WIDTHS[list] * WIDTHS[list];
            numbers.into_iter().take(room).collect::<Vec<u64>>()
        };
        let wanted = |of: fn(&Outcome) -> Vec<u64>, list: usize| {
            outcome.map_or_else(Vec::new, |outcome| fitting(of(outcome), list))
        };
        let bytes = outcome.map_or(&[][..], |outcome| &outcome.document);
        let numbers = outcome.map_or_else(Vec::new, |outcome| outcome.counts().to_vec());
        let difference = (counts.differs("counts", &numbers))
            .or_else(|| document.differs("document", bytes))
            .or_else(|| segments.differs("segments", &wanted(records::segments, 1)))
            .or_else(|| findings.differs("findings", &outcome.map_or_else(Vec::new, records::findings)))
            .or_else(|| stops.differs("stops", &wanted(records::stops, 3)));
        difference.map_or(Ok(()), Err)
    }
}
