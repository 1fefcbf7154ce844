//! `nest` beside the Rust's.

use crate::lent::Lent;
use crate::records;
use crate::subject::{Agreed, Subject};
use job::Job;
use oracle::{Answer, Bound, Finding};

/// Where each row hangs, held to what the Rust finds of it, the list lent in many lengths. The findings of
/// nest themselves are compared number by number with those of the whole writer.
pub struct Nest<F>(pub F);

/// A job and a list to lend, as `native::nest` takes them.
pub type Lending = fn(&[u8], &mut [u32]) -> u32;

impl Nest<Lending> {
    /// With the proved `nest`.
    pub fn proved() -> Self {
        Nest(native::nest)
    }
}

impl<F: Fn(&[u8], &mut [u32]) -> u32 + Sync> Subject for Nest<F> {
    fn run(&self, bytes: &[u8]) -> Result<Agreed, String> {
        let job = match job::check(bytes) {
            Ok(job) => job,
            Err(refusal) => {
                self.lend(bytes, u32::from(refusal.number()), &[], 7)?;
                return Ok(Agreed { answer: refusal.number(), seen: Vec::new() });
            }
        };
        let rows = job.data.iter().map(|table| table.rows as usize).sum::<usize>();
        let mut records = vec![0; rows * 3];
        let outcome = match oracle::answer(bytes, Bound::USUAL) {
            Answer::Done(outcome) => outcome,
            // The Rust gave no findings to compare with.
            other => {
                if (self.0)(bytes, &mut records) != 0 {
                    return Err("nest refuses a job that passes refusals 1 to 5".to_string());
                }
                let (answer, seen) = match other {
                    Answer::Refused(number) => (number, "not compared: refused by the Rust's walk"),
                    Answer::GivenUp => (0, "not compared: given up"),
                    _ => (0, "not compared: the Rust panics"),
                };
                return Ok(Agreed { answer, seen: vec![seen.to_string()] });
            }
        };
        let nests: Vec<Finding> =
            outcome.findings.iter().filter(|one| records::is_nests(one)).cloned().collect();
        let own = outcome.findings.iter().position(|finding| !records::is_nests(finding));
        if own.is_some_and(|own| own != nests.len()) {
            return Err("the Rust's walk finds something before nest has ended".to_string());
        }
        (self.0)(bytes, &mut records);
        hangs(&job, &records, &outcome.findings)?;
        let all = records.len();
        for length in [all, all + 1, 0, all.saturating_sub(1), all / 2] {
            self.lend(bytes, 0, &records, length)?;
        }
        Ok(Agreed { answer: 0, seen: records::kinds(&nests) })
    }
}

impl<F: Fn(&[u8], &mut [u32]) -> u32> Nest<F> {
    /// A call with a list of some length: the answer, and what the list is to hold as far as it fits.
    fn lend(&self, bytes: &[u8], answer: u32, nest: &[u32], length: usize) -> Result<(), String> {
        let mut records = Lent::new(length, |at| 0xa5a5_0000 + at as u32);
        let got = (self.0)(bytes, records.list());
        if got != answer {
            return Err(format!("nest gives {got}, the tools {answer}"));
        }
        records.differs("nest", nest).map_or(Ok(()), Err)
    }
}

/// What the findings say of the records: a row lacks its parent or hangs on one, where its table asks for
/// one, and a row whose reference doesn't match hangs on the row that the finding names.
fn hangs(job: &Job, records: &[u32], findings: &[Finding]) -> Result<(), String> {
    let mut first = Vec::new();
    let mut rows = 0;
    for table in &job.data {
        first.push(rows);
        rows += table.rows as usize;
    }
    let record = |table: u64, row: u64| {
        let at = (first[table as usize] + row as usize) * 3;
        [records[at], records[at + 1], records[at + 2]].map(u64::from)
    };
    let lacking = |finding: &Finding| match *finding {
        Finding::MissingParent { table, row, .. } => Some((table, row)),
        _ => None,
    };
    let lacking: Vec<(u64, u64)> = findings.iter().filter_map(lacking).collect();
    for (number, table) in job.data.iter().enumerate() {
        let asks = job.spec.tables.get(number).is_some_and(|spec| spec.segment || spec.parent.is_some());
        for row in 0..u64::from(table.rows) {
            let lost = lacking.contains(&(number as u64, row));
            let above = record(number as u64, row)[0];
            if (above != 0) != (asks && !lost) {
                return Err(format!("row {row} of table {number} has {above} as the row above plus one"));
            }
        }
    }
    for finding in findings {
        if let Finding::MismatchedReference { table, row, parent, parent_row, .. } = *finding {
            let [above, _, through] = record(table, row);
            if (above, through) != (parent_row + 1, parent) {
                return Err(format!(
                    "row {row} of table {table} hangs on {above} of {through}, not on {parent_row} + 1 of {parent}"
                ));
            }
        }
    }
    Ok(())
}
