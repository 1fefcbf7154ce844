//! Seeded jobs for comparisons. A sample depends on its seed and number alone.

pub mod cells;
pub mod complete;
pub mod corners;
pub mod damage;
pub mod faults;
pub mod limits;
pub mod odd;
pub mod random;
pub mod remit;
pub mod rows;
pub mod shrink;
pub mod small;
pub mod strange;

use cells::Mood;
use job::{Job, encode};
use random::Random;

/// A byte string to run.
#[derive(Debug, Clone)]
pub struct Sample {
    pub kind: Kind,
    /// What it is about, where its kind has named cases.
    pub name: String,
    pub bytes: Vec<u8>,
}

/// The kinds of samples.
#[derive(Debug, Clone, Copy, PartialEq, Eq, PartialOrd, Ord, Hash)]
pub enum Kind {
    /// 835-like, complete plan, plausible rows.
    Remittance,
    /// 835-like, complete plan, hostile rows and envelope.
    HostileRemittance,
    /// A random complete plan, plausible rows.
    Complete,
    /// A random complete plan, hostile rows.
    HostileComplete,
    /// A complete plan with one condition broken, or almost.
    NearlyComplete,
    /// A complete plan with strange parts.
    Strange,
    /// A complete plan with exactly one condition broken.
    Broken,
    /// An odd plan that passes refusals 1 to 5, few loops.
    Odd,
    /// An odd plan, many loops and tables.
    OddLarge,
    /// One of the numbered small jobs.
    Small,
    /// A corner of the Rust.
    Corner,
    /// A corner with one number changed.
    TweakedCorner,
    /// One number changed in any job that passes.
    Tweaked,
    /// Damaged bytes.
    Damaged,
    /// Damaged within its sections, the trailer stands.
    DamagedWithin,
    /// One fault of refusals 1 to 5.
    Fault,
    /// Two faults of different refusals.
    TwoFaults,
    /// A number one below, at or above its limit.
    Limit,
    /// Loop instances around the most that are allowed.
    Throng,
}

impl Kind {
    /// How often each kind comes in a thousand samples; the others come in `PLANS`.
    pub const USUAL: [(Kind, u64); 17] = [
        (Kind::Remittance, 40),
        (Kind::HostileRemittance, 100),
        (Kind::Complete, 80),
        (Kind::HostileComplete, 140),
        (Kind::NearlyComplete, 40),
        (Kind::Odd, 198),
        (Kind::OddLarge, 40),
        (Kind::Small, 100),
        (Kind::Corner, 20),
        (Kind::TweakedCorner, 40),
        (Kind::Tweaked, 50),
        (Kind::Damaged, 40),
        (Kind::DamagedWithin, 40),
        (Kind::Fault, 20),
        (Kind::TwoFaults, 30),
        (Kind::Limit, 20),
        (Kind::Throng, 2),
    ];

    /// The same where plans are to be complete, or nearly.
    pub const PLANS: [(Kind, u64); 12] = [
        (Kind::Remittance, 30),
        (Kind::HostileRemittance, 70),
        (Kind::Complete, 100),
        (Kind::HostileComplete, 150),
        (Kind::Strange, 350),
        (Kind::NearlyComplete, 30),
        (Kind::Broken, 150),
        (Kind::Odd, 40),
        (Kind::Small, 30),
        (Kind::Corner, 10),
        (Kind::TweakedCorner, 20),
        (Kind::Tweaked, 20),
    ];

    pub fn name(self) -> &'static str {
        match self {
            Kind::Remittance => "remittance",
            Kind::HostileRemittance => "remittance, hostile rows",
            Kind::Complete => "complete plan",
            Kind::HostileComplete => "complete plan, hostile rows",
            Kind::NearlyComplete => "nearly complete plan",
            Kind::Strange => "complete plan, strange parts",
            Kind::Broken => "one condition broken",
            Kind::Odd => "odd plan",
            Kind::OddLarge => "odd plan, large",
            Kind::Small => "small",
            Kind::Corner => "corner",
            Kind::TweakedCorner => "corner, one number changed",
            Kind::Tweaked => "one number changed",
            Kind::Damaged => "damaged bytes",
            Kind::DamagedWithin => "damaged section",
            Kind::Fault => "one fault",
            Kind::TwoFaults => "two faults",
            Kind::Limit => "at a limit",
            Kind::Throng => "many instances",
        }
    }
}

/// The sample of a seed and number, of the usual kinds.
pub fn sample(seed: u64, number: u64) -> Sample {
    sample_of(&Kind::USUAL, seed, number)
}

/// The sample of a seed and number, of these kinds.
pub fn sample_of(kinds: &[(Kind, u64)], seed: u64, number: u64) -> Sample {
    let mut random = Random::of(seed, number);
    let total = kinds.iter().map(|(_, often)| often).sum();
    let mut at = random.below(total);
    for (kind, often) in kinds {
        if at < *often {
            return of_kind(&mut random, *kind);
        }
        at -= often;
    }
    unreachable!("the kinds cover the total")
}

/// A fixed list: the remittance of three claims, every corner and fault, and every limit at its most and one
/// past it. It has every refusal from 1 to 6, kind of finding and kind of instance.
pub fn fixed() -> Vec<Sample> {
    let sample = |kind, name: &str, bytes| Sample { kind, name: name.to_string(), bytes };
    let mut all = vec![sample(Kind::Remittance, "the sample", encode(&remit::sample()))];
    for (name, text) in corners::corners() {
        let job = job::parse(text.as_bytes()).expect("a corner is a job");
        all.push(sample(Kind::Corner, name, encode(&job)));
    }
    for fault in faults::FAULTS {
        all.push(sample(Kind::Fault, fault.name, faults::faulty(faults::base(), &[fault])));
    }
    for limit in limits::limits() {
        for value in [limit.most, limit.most + 1] {
            let name = format!("{} {value}", limit.name);
            all.push(sample(Kind::Limit, &name, encode(&limits::at(&limit, value))));
        }
    }
    all
}

fn any_mood(random: &mut Random) -> Mood {
    if random.chance(50) { Mood::Plausible } else { Mood::Hostile }
}

/// A job that passes refusals 1 to 5, of any kind.
fn any(random: &mut Random) -> Job {
    let mood = any_mood(random);
    match random.below(5) {
        0 => remit::remittance(random, mood),
        1 | 2 => complete::complete(random, mood),
        3 => odd::odd(random, 6, 4),
        _ => corner(random).1,
    }
}

fn corner(random: &mut Random) -> (&'static str, Job) {
    let count = corners::corners().count();
    let (name, text) = corners::corners().nth(random.index(count)).expect("there are corners");
    (name, job::parse(text.as_bytes()).expect("a corner is a job"))
}

/// A sample of a kind.
pub fn of_kind(random: &mut Random, kind: Kind) -> Sample {
    let mut name = String::new();
    let bytes = match kind {
        Kind::Remittance => encode(&remit::remittance(random, Mood::Plausible)),
        Kind::HostileRemittance => encode(&remit::remittance(random, Mood::Hostile)),
        Kind::Complete => encode(&complete::complete(random, Mood::Plausible)),
        Kind::HostileComplete => encode(&complete::complete(random, Mood::Hostile)),
        Kind::NearlyComplete => {
            let mood = any_mood(random);
            let mut job = complete::complete(random, mood);
            complete::break_plan(random, &mut job);
            encode(&job)
        }
        Kind::Strange => {
            let mood = any_mood(random);
            encode(&strange::strange(random, mood))
        }
        Kind::Broken => {
            let mood = any_mood(random);
            encode(&strange::broken(random, mood))
        }
        Kind::Odd => encode(&odd::odd(random, 6, 4)),
        Kind::OddLarge => encode(&odd::odd(random, 32, 16)),
        Kind::Small => {
            let number = random.below(small::COUNT);
            name = number.to_string();
            encode(&small::small(number))
        }
        Kind::Corner => {
            let (corner, job) = corner(random);
            name = corner.to_string();
            encode(&job)
        }
        Kind::TweakedCorner => {
            let (corner, mut job) = corner(random);
            name = corner.to_string();
            for _ in 0..1 + random.below(2) {
                damage::tweak(random, &mut job);
            }
            encode(&job)
        }
        Kind::Tweaked => {
            let mut job = any(random);
            damage::tweak(random, &mut job);
            encode(&job)
        }
        Kind::Damaged => {
            let mut bytes = encode(&any(random));
            damage::damage(random, &mut bytes);
            bytes
        }
        Kind::DamagedWithin => {
            let job = any(random);
            damage::damage_within(random, &job)
        }
        Kind::Fault => {
            let fault = random.pick(faults::FAULTS);
            name = fault.name.to_string();
            faults::faulty(faults::base(), &[fault])
        }
        Kind::TwoFaults => {
            let first = random.pick(faults::FAULTS);
            let second = random.pick(faults::FAULTS);
            let (first, second) =
                if first.number <= second.number { (first, second) } else { (second, first) };
            if first.number == second.number || !first.joins() || !second.joins() {
                name = first.name.to_string();
                faults::faulty(faults::base(), &[first])
            } else {
                name = format!("{}; {}", first.name, second.name);
                faults::faulty(faults::base(), &[first, second])
            }
        }
        Kind::Limit => {
            let limits = limits::limits();
            let limit = random.pick(&limits);
            let value = limit.most - 1 + random.number(3);
            name = format!("{} {value}", limit.name);
            encode(&limits::at(limit, value))
        }
        Kind::Throng => encode(&limits::throng(random)),
    };
    Sample { kind, name, bytes }
}
