//! What is compared.

use generate::Kind;
use native::Lists;

/// A function of a job's bytes that both sides have.
pub trait Subject: Sync {
    /// Runs both sides: what they agree on, or in words how they differ.
    fn run(&self, bytes: &[u8]) -> Result<Agreed, String>;

    /// The kinds of jobs to run it on, and how often each comes.
    fn kinds(&self) -> &'static [(Kind, u64)] {
        &Kind::USUAL
    }
}

/// What both sides gave.
#[derive(Debug, Clone, Default, PartialEq, Eq)]
pub struct Agreed {
    /// The answer's number, 0 to 7.
    pub answer: u8,
    /// What else was seen, such as kinds of findings, for the summary.
    pub seen: Vec<String>,
}

/// A job and the lists to lend, as `native::write` takes them.
pub type Writing = for<'a> fn(&[u8], Lists<'a>) -> u32;

/// `check` beside `job::check`.
pub struct Check<F>(pub F);

impl Check<fn(&[u8]) -> u32> {
    /// With the proved `check`.
    pub fn proved() -> Self {
        Check(native::check)
    }
}

impl<F: Fn(&[u8]) -> u32 + Sync> Subject for Check<F> {
    fn run(&self, bytes: &[u8]) -> Result<Agreed, String> {
        let wanted = job::check(bytes).map_or_else(|refusal| refusal.number(), |_| 0);
        let got = (self.0)(bytes);
        if got != u32::from(wanted) {
            return Err(format!("check gives {got}, the rules read apart from it {wanted}"));
        }
        Ok(Agreed { answer: wanted, seen: Vec::new() })
    }
}

/// The plan check beside `job::complete`.
pub struct Plan<F>(pub F);

impl Plan<fn(&[u8]) -> u32> {
    /// With the proved one.
    pub fn proved() -> Self {
        Plan(native::plan)
    }
}

impl<F: Fn(&[u8]) -> u32 + Sync> Subject for Plan<F> {
    fn run(&self, bytes: &[u8]) -> Result<Agreed, String> {
        let got = (self.0)(bytes);
        let (answer, wanted, seen) = match job::check(bytes) {
            Err(refusal) => (refusal.number(), u32::from(refusal.number()), Vec::new()),
            Ok(job) => match job::complete::gap(&job) {
                None => (0, 0, vec!["complete".to_string()]),
                Some(condition) => (0, 16, vec![job::complete::broken(condition)]),
            },
        };
        if got != wanted {
            return Err(format!("the plan check gives {got}, the rules read apart from it {wanted}"));
        }
        Ok(Agreed { answer, seen })
    }

    fn kinds(&self) -> &'static [(Kind, u64)] {
        &Kind::PLANS
    }
}
