//! The comparison itself: sides that agree, sides that don't, and lent lists.

use compare::lent::{Lent, answer, lengths};
use compare::{Check, Subject, run};
use std::time::Duration;

/// The refusal by the tools' own reading.
fn number(bytes: &[u8]) -> u32 {
    job::check(bytes).map_or_else(|refusal| u32::from(refusal.number()), |_| 0)
}

#[test]
fn sides_that_agree() {
    let subject = Check(number);
    let summary = run(&subject, 300, 5, 2, Duration::MAX);
    assert_eq!(summary.differing(), 0);
    assert!(summary.samples() > 300);
    assert!(summary.difference(&subject).is_none());
}

/// A side that allows 33 loops: found, and shown on a job of 33 loops and little else.
#[test]
fn a_limit_passed_over() {
    let lax = |bytes: &[u8]| match job::decode(bytes) {
        Ok(job) if job.spec.loops.len() == 33 && number(bytes) == 3 => 0,
        _ => number(bytes),
    };
    let subject = Check(lax);
    let summary = run(&subject, 0, 1, 1, Duration::MAX);
    assert!(summary.differing() > 0);
    let text = summary.difference(&subject).expect("a difference");
    assert!(text.contains("check gives 0, the rules read apart from it 3"), "{text}");
    assert!(text.contains("loop 32"), "{text}");
    assert!(!text.contains("table 0"), "{text}");
}

/// A side that forgets the bytes left over in the data section: the smallest has one byte more than it
/// needs.
#[test]
fn bytes_left_over() {
    let lax = |bytes: &[u8]| {
        let without = bytes.len().checked_sub(25).map(|at| {
            let mut bytes = bytes.to_vec();
            bytes.remove(at);
            let end = bytes.len();
            bytes[end - 4..].copy_from_slice(&(end as u32).to_le_bytes());
            bytes
        });
        match without {
            Some(shorter) if number(bytes) == 2 && job::decode(&shorter).is_ok() => 0,
            _ => number(bytes),
        }
    };
    let subject = Check(lax);
    let bytes = generate::faults::faulty(
        generate::faults::base(),
        &[generate::faults::FAULTS.iter().find(|fault| fault.name == "a byte over in data").expect("there")],
    );
    assert!(subject.run(&bytes).is_err());
    let small = compare::smallest(&bytes, |bytes| subject.run(bytes).is_err());
    assert!(small.len() < bytes.len());
    assert!(subject.run(&small).is_err());
}

#[test]
fn lent_lists_tell() {
    let mut list = Lent::new(3, |at| 0xa5 ^ at as u8);
    assert_eq!(list.differs("list", &[]), None);
    list.list()[..2].copy_from_slice(&[1, 2]);
    assert_eq!(list.differs("list", &[1, 2]), None);
    assert!(list.differs("list", &[1]).expect("touched").contains("past what belongs there"));
    assert!(list.differs("list", &[1, 3]).expect("wrong").contains("inside"));
    list.list()[2] = 3;
    assert_eq!(list.differs("list", &[1, 2, 3, 4, 5]), None);
}

#[test]
fn lengths_to_lend() {
    let counts = [9, 1, 0, 4];
    let all = lengths(counts);
    assert!(all.contains(&counts) && all.contains(&[10, 2, 1, 5]) && all.contains(&[0; 4]));
    assert!(all.contains(&[8, 1, 0, 4]) && all.contains(&[9, 0, 0, 4]) && all.contains(&[9, 1, 0, 3]));
    assert_eq!(answer(counts, counts), 0);
    assert_eq!(answer(counts, [9, 0, 0, 4]), 7);
}

/// `nest` beside the Rust, where both are at hand.
#[cfg(feature = "oracle")]
mod nesting {
    use compare::{Nest, run};
    use std::time::Duration;

    /// How often the sides differ, and the first difference.
    fn differing(side: impl Fn(&[u8], &mut [u32]) -> u32 + Sync) -> (u64, String) {
        let subject = Nest(side);
        let summary = run(&subject, 200, 5, 1, Duration::MAX);
        (summary.differing(), summary.difference(&subject).unwrap_or_default())
    }

    #[test]
    fn nest_as_proved() {
        if native::is_there() {
            assert_eq!(differing(native::nest), (0, String::new()));
        }
    }

    /// A side that refuses what is a job.
    #[test]
    fn a_job_refused() {
        if native::is_there() {
            let (count, text) = differing(|job, nest| if native::nest(job, nest) == 0 { 4 } else { 0 });
            assert!(count > 0 && text.contains("nest gives 4, the tools 0"), "{text}");
        }
    }

    /// A side that hangs the first row nowhere.
    #[test]
    fn a_row_that_hangs_nowhere() {
        if native::is_there() {
            let (count, text) = differing(|job, nest| {
                let answer = native::nest(job, nest);
                // The row above plus one, where there is a row that has one.
                if let Some(first) = nest.first_mut().filter(|first| (1..=4_096).contains(*first)) {
                    *first = 0;
                }
                answer
            });
            assert!(count > 0 && text.contains("has 0 as the row above plus one"), "{text}");
        }
    }

    /// A side that touches what a refused job leaves alone.
    #[test]
    fn a_refused_job() {
        if native::is_there() {
            let (count, text) = differing(|job, nest| {
                let answer = native::nest(job, nest);
                if let (1.., Some(first)) = (answer, nest.first_mut()) {
                    *first = 0;
                }
                answer
            });
            assert!(count > 0 && text.contains("nest of 7, past what belongs there: 0 at 0"), "{text}");
        }
    }
}

/// A side that judges plans as the tools do, and one for which all are incomplete.
#[test]
fn plans_judged_wrongly() {
    let own = |bytes: &[u8]| match job::check(bytes) {
        Err(refusal) => u32::from(refusal.number()),
        Ok(job) => {
            if job::complete::gap(&job).is_none() {
                0
            } else {
                16
            }
        }
    };
    assert_eq!(run(&compare::Plan(own), 300, 3, 2, Duration::MAX).differing(), 0);
    let never = |bytes: &[u8]| if own(bytes) == 0 { 16 } else { own(bytes) };
    let summary = run(&compare::Plan(never), 300, 3, 2, Duration::MAX);
    assert!(summary.differing() > 0);
}

/// The writer's comparison with the Rust itself as the other side: it agrees, and a side that is one byte or one stop
/// short, or that touches a list of a refused job, is found.
#[cfg(feature = "oracle")]
mod writing {
    use super::*;
    use compare::{Kept, Write, records};
    use native::Lists;
    use oracle::{Answer, Bound};

    fn put<T: Copy>(list: &mut [T], items: &[T], width: usize) -> bool {
        let room = list.len() / width * width;
        let fits = items.len().min(room);
        list[..fits].copy_from_slice(&items[..fits]);
        items.len() <= room
    }

    fn rust(bytes: &[u8], lists: Lists, less: usize) -> u32 {
        match oracle::answer(bytes, Bound::USUAL) {
            Answer::Refused(number) => u32::from(number),
            Answer::Done(outcome) => {
                lists.counts.copy_from_slice(&outcome.counts());
                let stops = records::stops(&outcome);
                let stops = &stops[..stops.len().saturating_sub(less * 3)];
                let fits = [
                    put(lists.document, &outcome.document, 1),
                    put(lists.segments, &records::segments(&outcome), 3),
                    put(lists.findings, &records::findings(&outcome), 1),
                    put(lists.stops, stops, 3),
                ];
                if fits.contains(&false) { 7 } else { 0 }
            }
            _ => 0,
        }
    }

    #[test]
    fn the_rust_beside_itself() {
        let subject = Write(|bytes: &[u8], lists: Lists<'_>| rust(bytes, lists, 0));
        assert_eq!(run(&subject, 200, 5, 2, Duration::MAX).differing(), 0);
        let subject = Write(|bytes: &[u8], lists: Lists<'_>| rust(bytes, lists, 1));
        assert!(run(&subject, 50, 5, 2, Duration::MAX).differing() > 0);
    }

    /// More findings than one window of the writer takes, in lists of many lengths.
    #[test]
    fn many_findings() {
        if native::is_there() {
            let rows = "  | \"A*\"\n".repeat(200);
            let text = format!("loop 0 LX rows 0\n  row! 0 LX 1=c0\ntable 0\n  : text\n{rows}");
            let job = job::parse(text.as_bytes()).expect("a job");
            let agreed = Write::proved().run(&job::encode(&job)).expect("both agree");
            assert_eq!(agreed.seen, ["DV of a cell, role 0"]);
        }
    }

    /// What the Rust gives, spoiled before it is read: how often something is lost, and how first.
    fn kept(spoil: fn(&mut Lists)) -> (u64, String) {
        let subject = Kept(|bytes: &[u8], mut lists: Lists<'_>| {
            let whole = Lists {
                document: &mut *lists.document,
                segments: &mut *lists.segments,
                findings: &mut *lists.findings,
                stops: &mut *lists.stops,
                counts: &mut *lists.counts,
            };
            let answer = rust(bytes, whole, 0);
            if answer == 0 {
                spoil(&mut lists);
            }
            answer
        });
        let summary = run(&subject, 150, 5, 2, Duration::MAX);
        (summary.differing(), summary.difference(&subject).unwrap_or_default())
    }

    #[test]
    fn the_rust_loses_nothing() {
        assert_eq!(kept(|_| {}), (0, String::new()));
    }

    /// Each spoiled list is found, in the words that belong to it.
    #[test]
    fn each_loss_is_found() {
        let spoils: [(&str, fn(&mut Lists)); 9] = [
            ("grammar", |lists| lists.counts[0] = lists.counts[0].saturating_sub(1)),
            ("read as", |lists| lists.document.iter_mut().take(1).for_each(|byte| *byte = b'Q')),
            (" at (", |lists| {
                let digit = lists.document.iter_mut().find(|byte| **byte == b'0');
                digit.into_iter().for_each(|byte| *byte = b'8');
            }),
            ("stops 0 times, not 1", |lists| lists.stops.iter_mut().take(3).for_each(|number| *number = 9)),
            ("stop 0 is", |lists| {
                if let [a, b, c, d, e, f, ..] = lists.stops {
                    [(a, d), (b, e), (c, f)].into_iter().for_each(|(one, other)| std::mem::swap(one, other));
                }
            }),
            ("comes from", |lists| lists.segments.iter_mut().take(3).for_each(|number| *number += 1)),
            ("segments are traced", |lists| lists.counts[1] = lists.counts[1].saturating_sub(1)),
            ("there is no finding", |lists| lists.findings.iter_mut().for_each(|finding| finding[0] = 0)),
            ("no text holds a separator", |lists| {
                lists.findings.iter_mut().for_each(|finding| finding[0] = 4);
            }),
        ];
        for (words, spoil) in spoils {
            let (count, text) = kept(spoil);
            assert!(count > 0 && text.contains(words), "{words}: {count}, {text}");
        }
    }

    #[test]
    fn a_refused_job_touched() {
        let subject = Write(|bytes: &[u8], lists: Lists<'_>| {
            let number = job::check(bytes).map_or_else(|refusal| u32::from(refusal.number()), |_| 0);
            if number > 0 {
                lists.stops[0] = 0;
                return number;
            }
            rust(bytes, lists, 0)
        });
        assert!(run(&subject, 100, 5, 2, Duration::MAX).differing() > 0);
    }
}
