//! The generated jobs are what they say they are.

use generate::faults::{FAULTS, base, faulty};
use generate::limits::{at, limits};
use generate::{Kind, corners, fixed, remit, sample, sample_of, shrink, small};
use job::{check, decode, encode, parse, print};
use oracle::{Answer, Bound, Finding, answer};
use std::collections::{BTreeSet, HashSet};

fn refusal(bytes: &[u8]) -> u8 {
    check(bytes).map_or_else(|refusal| refusal.number(), |_| 0)
}

#[test]
fn the_base_of_faults_passes() {
    assert_eq!(refusal(&encode(&base())), 0);
}

#[test]
fn each_fault_brings_its_refusal() {
    for fault in FAULTS {
        assert_eq!(refusal(&faulty(base(), &[fault])), fault.number, "{}", fault.name);
    }
    for number in 1..=5 {
        assert!(FAULTS.iter().any(|fault| fault.number == number));
    }
}

#[test]
fn of_two_faults_the_lower_counts() {
    for first in FAULTS.iter().filter(|first| first.joins()) {
        for second in FAULTS.iter().filter(|second| second.joins() && second.number > first.number) {
            let names = format!("{}; {}", first.name, second.name);
            assert_eq!(refusal(&faulty(base(), &[first, second])), first.number, "{names}");
        }
    }
}

#[test]
fn limits_are_exact() {
    for limit in limits() {
        let answer = |value| match answer(&encode(&at(&limit, value)), Bound::WIDE) {
            Answer::Refused(number) => number,
            Answer::Done(_) => 0,
            other => panic!("{}: {other:?}", limit.name),
        };
        assert_eq!(answer(limit.most - 1), 0, "{} below", limit.name);
        assert_eq!(answer(limit.most), 0, "{} at", limit.name);
        assert_eq!(answer(limit.most + 1), limit.refusal, "{} above", limit.name);
    }
}

/// From text to bytes and back.
fn round(job: &job::Job) {
    let text = print(job);
    let again = parse(text.as_bytes()).unwrap_or_else(|error| panic!("{error}\n{text}"));
    assert!(again == *job, "{text}");
    assert_eq!(print(&again), text);
}

#[test]
fn corners_pass_and_run() {
    assert!(corners::corners().count() > 60);
    for (name, text) in corners::corners() {
        let job = parse(text.as_bytes()).unwrap_or_else(|error| panic!("{name}: {error}"));
        round(&job);
        assert!(matches!(answer(&encode(&job), Bound::WIDE), Answer::Done(_)), "{name}");
    }
}

#[test]
fn small_jobs_pass() {
    for number in (0..small::COUNT).step_by(7) {
        assert_eq!(refusal(&encode(&small::small(number))), 0, "{number}");
    }
}

#[test]
fn the_remittance_is_written_without_findings() {
    match answer(&encode(&remit::sample()), Bound::WIDE) {
        Answer::Done(outcome) => assert!(outcome.findings.is_empty()),
        other => panic!("{other:?}"),
    }
}

#[test]
fn generated_jobs_go_round() {
    for number in 0..3_000 {
        let sample = sample(1, number);
        if let Ok(job) = decode(&sample.bytes) {
            assert_eq!(encode(&job), sample.bytes);
            round(&job);
        }
    }
}

#[test]
fn samples_depend_on_seed_and_number_alone() {
    for number in 0..200 {
        assert_eq!(sample(5, number).bytes, sample(5, number).bytes);
    }
}

/// Shrinks to the least that still has a finding of a kind.
#[test]
fn shrinking_keeps_what_it_is_to_keep() {
    let keeps = |job: &job::Job| match answer(&encode(job), Bound::USUAL) {
        Answer::Done(outcome) => {
            outcome.findings.iter().any(|finding| matches!(finding, Finding::OutOfOrder { .. }))
        }
        _ => false,
    };
    let mut shrunk = 0;
    for number in 0..400 {
        let Ok(job) = check(&sample(3, number).bytes) else { continue };
        if keeps(&job) && shrunk < 10 {
            let small = shrink::shrink(&job, keeps);
            assert!(keeps(&small));
            assert!(encode(&small).len() < 700, "{}", print(&small));
            shrunk += 1;
        }
    }
    assert_eq!(shrunk, 10);
}

/// Plans that are complete by construction, and odd ones that mostly aren't.
#[test]
fn complete_plans_are_complete() {
    let mut gaps = [0; 6];
    for number in 0..6_000 {
        let sample = sample(7, number);
        let Ok(job) = check(&sample.bytes) else { continue };
        let gap = job::complete::gap(&job);
        match sample.kind {
            Kind::Remittance | Kind::HostileRemittance | Kind::Complete | Kind::HostileComplete => {
                assert_eq!(gap, None, "{}", print(&job));
            }
            _ => gaps[usize::from(gap.unwrap_or(0))] += 1,
        }
    }
    assert!(gaps.iter().all(|&count| count > 0), "{gaps:?}");
}

/// Strange plans are complete all the same; broken ones break each condition, the last three alone.
#[test]
fn strange_and_broken_plans() {
    let mut gaps = [0; 6];
    for number in 0..600 {
        let sample = sample_of(&Kind::PLANS, 7, number);
        let Ok(job) = check(&sample.bytes) else { continue };
        let gap = job::complete::gap(&job);
        match sample.kind {
            Kind::Strange => assert_eq!(gap, None, "{}", print(&job)),
            Kind::Broken => {
                let gap = gap.unwrap_or(0);
                gaps[usize::from(gap)] += 1;
                assert!(gap < 3 || (gap + 1..=5).all(|later| job::complete::holds(&job, later)));
            }
            _ => {}
        }
    }
    assert!(gaps[1..].iter().all(|&count| count > 0), "{gaps:?}");
}

#[test]
fn the_fixed_list_has_everything() {
    let (mut refusals, mut findings, mut instances) = (BTreeSet::new(), BTreeSet::new(), HashSet::new());
    for sample in fixed() {
        match answer(&sample.bytes, Bound::WIDE) {
            Answer::Refused(number) => {
                refusals.insert(number);
            }
            Answer::Done(outcome) => {
                let lines = oracle::listing_lines(&outcome);
                findings.extend(lines[1..].iter().map(|line| line.chars().take(4).collect::<String>()));
                let job = decode(&sample.bytes).expect("a job");
                let plan = job.plan.iter().zip(&outcome.entered).filter(|(_, count)| **count > 0);
                instances.extend(plan.map(|(plan, _)| std::mem::discriminant(&plan.instances)));
            }
            other => panic!("{}: {other:?}", sample.name),
        }
    }
    assert_eq!(refusals.into_iter().collect::<Vec<_>>(), [1, 2, 3, 4, 5, 6]);
    for start in ["DR", "MP", "OO", "MR", "DV C", "DV E", "NW C", "NW E"] {
        assert!(findings.iter().any(|line| line.starts_with(start)), "{start}");
    }
    assert_eq!(instances.len(), 5);
}
