//! The form holds what was put in, and a wrong answer shows.

use std::sync::LazyLock;
use vectors::{Vectors, answer, replay};

static ALL: LazyLock<Vectors> = LazyLock::new(Vectors::all);

#[test]
fn reads_back() {
    assert_eq!(replay(&ALL.input, answer), ALL.output);
}

/// The program reads into this much.
#[test]
fn fits() {
    assert!(ALL.input.len() < 300_000, "{} bytes", ALL.input.len());
}

#[test]
fn a_wrong_answer_shows() {
    let mut asked = 0;
    let wrong = replay(&ALL.input, |bytes| {
        asked += 1;
        if asked == 1_000 { (answer(bytes) + 1) % 6 } else { answer(bytes) }
    });
    let lines: Vec<&str> = wrong.lines().filter(|line| line.starts_with("differs")).collect();
    assert_eq!(lines.len(), 1);
    assert_eq!(wrong.lines().count(), ALL.output.lines().count() + 1);
}

/// Each refusal and none come, and nothing is left out at the end.
#[test]
fn covers() {
    let mut counts = [0u64; 6];
    for line in ALL.output.lines().filter(|line| *line != "end") {
        let (_, numbers) = line.rsplit_once(": ").expect("a name and counts");
        for (count, number) in counts.iter_mut().zip(numbers.split(' ')) {
            *count += number.parse::<u64>().expect("a count");
        }
    }
    assert!(counts.iter().all(|count| *count > 100), "{counts:?}");
}
