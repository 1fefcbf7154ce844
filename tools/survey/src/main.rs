//! `survey [COUNT] [SEED] [THREADS]` runs generated jobs through the Rust and prints what they cover:
//! by kind, refusal, finding, kind of instance and panic. `survey small` runs every small job.

use generate::{Kind, Sample, sample};
use job::Instances;
use oracle::{Answer, Bound, Finding, Origin, Outcome, answer};
use std::collections::BTreeMap;
use std::time::Instant;

/// What was seen.
#[derive(Default)]
struct Summary {
    kinds: BTreeMap<Kind, Row>,
    findings: BTreeMap<String, Tally>,
    instances: BTreeMap<&'static str, Tally>,
    /// By the first condition of a complete plan that doesn't hold, 0 where all do.
    gaps: [u64; 6],
    counter_at_highest: u64,
    panics: Vec<String>,
    given_up: Vec<String>,
}

/// The samples of a kind.
#[derive(Default, Clone)]
struct Row {
    samples: u64,
    /// By refusal, 1 to 7; 7 is that of the program `advise`.
    refused: [u64; 8],
    done: u64,
    with_findings: u64,
    /// Done with an empty document.
    empty: u64,
    given_up: u64,
    panicked: u64,
    bytes: u64,
    written: u64,
}

/// How many there were, and in how many jobs.
#[derive(Default, Clone, Copy)]
struct Tally {
    all: u64,
    jobs: u64,
}

impl Tally {
    fn add(&mut self, other: Tally) {
        self.all += other.all;
        self.jobs += other.jobs;
    }
}

fn finding_name(finding: &Finding) -> String {
    let from = |origin: &Origin| match origin {
        Origin::Cell { .. } => "cell".to_string(),
        Origin::Envelope { field } => format!("field {field:2}"),
    };
    match finding {
        Finding::DuplicateKey { .. } => "DR".to_string(),
        Finding::MissingParent { value: Some(_), .. } => "MP with a value".to_string(),
        Finding::MissingParent { value: None, .. } => "MP without".to_string(),
        Finding::OutOfOrder { .. } => "OO".to_string(),
        Finding::MismatchedReference { .. } => "MR".to_string(),
        Finding::Delimiter { origin, role, .. } => format!("DV {}, role {role}", from(origin)),
        Finding::NotWritable { origin, reason, .. } => format!("NW {}, reason {reason}", from(origin)),
    }
}

fn instances_name(instances: Instances) -> &'static str {
    match instances {
        Instances::Absent => "absent",
        Instances::Envelope => "envelope",
        Instances::Rows(_) => "rows",
        Instances::Inside(_) => "inside",
        Instances::Groups(_) => "groups",
        Instances::Implied => "implied",
    }
}

/// The program `advise` lends this much.
fn fits(outcome: &Outcome) -> bool {
    let [bytes, rest @ ..] = outcome.counts();
    bytes <= 65_536 && rest.into_iter().all(|count| count <= 512)
}

impl Summary {
    fn note(&mut self, number: u64, sample: &Sample, answer: &Answer) {
        let row = self.kinds.entry(sample.kind).or_default();
        row.samples += 1;
        row.bytes += sample.bytes.len() as u64;
        let label = || format!("number {number}, {} ({})", sample.kind.name(), sample.name);
        match answer {
            Answer::Refused(refusal) => row.refused[usize::from(*refusal)] += 1,
            Answer::GivenUp => {
                row.given_up += 1;
                self.given_up.push(label());
            }
            Answer::Panicked(message) => {
                row.panicked += 1;
                self.panics.push(format!("{}: {message}", label()));
            }
            Answer::Done(outcome) => {
                if fits(outcome) {
                    row.done += 1;
                } else {
                    row.refused[7] += 1;
                }
                row.written += outcome.document.len() as u64;
                row.with_findings += u64::from(!outcome.findings.is_empty());
                row.empty += u64::from(outcome.document.is_empty());
                self.note_outcome(sample, outcome);
            }
        }
    }

    fn note_outcome(&mut self, sample: &Sample, outcome: &Outcome) {
        let mut findings: BTreeMap<String, u64> = BTreeMap::new();
        for finding in &outcome.findings {
            *findings.entry(finding_name(finding)).or_default() += 1;
        }
        for (name, all) in findings {
            self.findings.entry(name).or_default().add(Tally { all, jobs: 1 });
        }
        let job = job::decode(&sample.bytes).unwrap_or_default();
        self.gaps[usize::from(job::complete::gap(&job).unwrap_or(0))] += 1;
        let mut entered: BTreeMap<&str, u64> = BTreeMap::new();
        for (count, plan) in outcome.entered.iter().zip(&job.plan) {
            *entered.entry(instances_name(plan.instances)).or_default() += count;
        }
        for (name, all) in entered.into_iter().filter(|(_, all)| *all > 0) {
            self.instances.entry(name).or_default().add(Tally { all, jobs: 1 });
        }
        self.counter_at_highest += u64::from(outcome.counter_at_highest);
    }

    fn merge(&mut self, other: Summary) {
        for (kind, row) in other.kinds {
            let mine = self.kinds.entry(kind).or_default();
            mine.samples += row.samples;
            for (mine, more) in mine.refused.iter_mut().zip(row.refused) {
                *mine += more;
            }
            mine.done += row.done;
            mine.with_findings += row.with_findings;
            mine.empty += row.empty;
            mine.given_up += row.given_up;
            mine.panicked += row.panicked;
            mine.bytes += row.bytes;
            mine.written += row.written;
        }
        for (name, tally) in other.findings {
            self.findings.entry(name).or_default().add(tally);
        }
        for (name, tally) in other.instances {
            self.instances.entry(name).or_default().add(tally);
        }
        for (mine, more) in self.gaps.iter_mut().zip(other.gaps) {
            *mine += more;
        }
        self.counter_at_highest += other.counter_at_highest;
        self.panics.extend(other.panics);
        self.given_up.extend(other.given_up);
    }

    fn print(&self) {
        println!(
            "{:28} {:>8} {:>8} {:>8} {:>8} {:>6} {:>6} {:>6} {:>6} {:>6} {:>6} {:>6} {:>6} {:>6} {:>7} {:>8}",
            "kind",
            "samples",
            "done",
            "findings",
            "empty",
            "1",
            "2",
            "3",
            "4",
            "5",
            "6",
            "7",
            "up",
            "panic",
            "bytes",
            "written"
        );
        let mut total = Row::default();
        let line = |name: &str, row: &Row| {
            let refused: Vec<String> = row.refused[1..].iter().map(|count| format!("{count:>6}")).collect();
            println!(
                "{name:28} {:>8} {:>8} {:>8} {:>8} {} {:>6} {:>6} {:>7} {:>8}",
                row.samples,
                row.done,
                row.with_findings,
                row.empty,
                refused.join(" "),
                row.given_up,
                row.panicked,
                row.bytes / row.samples.max(1),
                row.written / (row.done + row.refused[7]).max(1),
            );
        };
        for (kind, row) in &self.kinds {
            line(kind.name(), row);
            total.samples += row.samples;
            total.done += row.done;
            total.with_findings += row.with_findings;
            total.empty += row.empty;
            for (total, more) in total.refused.iter_mut().zip(row.refused) {
                *total += more;
            }
            total.given_up += row.given_up;
            total.panicked += row.panicked;
            total.bytes += row.bytes;
            total.written += row.written;
        }
        line("all", &total);
        println!("\n{:28} {:>10} {:>8}", "finding", "all", "jobs");
        for (name, tally) in &self.findings {
            println!("{name:28} {:>10} {:>8}", tally.all, tally.jobs);
        }
        println!("\n{:28} {:>10} {:>8}", "instances entered", "all", "jobs");
        for (name, tally) in &self.instances {
            println!("{name:28} {:>10} {:>8}", tally.all, tally.jobs);
        }
        let [complete, gaps @ ..] = self.gaps;
        println!("\ncomplete plans: {complete} jobs");
        for (name, jobs) in job::complete::NAMES.iter().zip(gaps) {
            println!("not complete, first by {name}: {jobs} jobs");
        }
        println!("a counter at its highest number: {} jobs", self.counter_at_highest);
        for (title, list) in [("panic", &self.panics), ("given up", &self.given_up)] {
            for label in list.iter().take(20) {
                println!("{title}: {label}");
            }
        }
    }
}

fn usage() -> ! {
    eprintln!("usage: survey [COUNT] [SEED] [THREADS] | survey small");
    std::process::exit(2)
}

fn main() {
    let args: Vec<String> = std::env::args().skip(1).collect();
    if args == ["small"] {
        let every = |number: u64| Sample {
            kind: Kind::Small,
            name: number.to_string(),
            bytes: job::encode(&generate::small::small(number)),
        };
        return survey(generate::small::COUNT, 1, every, "every small job");
    }
    let given = |at: usize, usual: u64| match args.get(at) {
        None => usual,
        Some(arg) => arg.parse().unwrap_or_else(|_| usage()),
    };
    let (count, seed, threads) = (given(0, 10_000), given(1, 1), given(2, 1).max(1));
    survey(count, threads, |number| sample(seed, number), &format!("seed {seed}"));
}

/// Runs so many samples and prints the summary.
fn survey(count: u64, threads: u64, sample: impl Fn(u64) -> Sample + Sync, title: &str) {
    let start = Instant::now();
    let mut summary = Summary::default();
    let part = |first: u64| {
        let mut summary = Summary::default();
        for number in (first..count).step_by(threads as usize) {
            let sample = sample(number);
            let answer = answer(&sample.bytes, Bound::USUAL);
            summary.note(number, &sample, &answer);
        }
        summary
    };
    let part = &part;
    std::thread::scope(|scope| {
        let parts: Vec<_> = (0..threads).map(|first| scope.spawn(move || part(first))).collect();
        for part in parts {
            summary.merge(part.join().expect("a part of the survey"));
        }
    });
    summary.print();
    let seconds = start.elapsed().as_secs_f64();
    println!("{title}: {count} samples in {seconds:.1} s, {:.0} a second", count as f64 / seconds);
}
