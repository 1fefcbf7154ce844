//! What the replayed jobs and the samples have.

use listings::{Listings, files};

/// Every refusal, every kind of finding, and the listing's example first.
#[test]
fn everything_is_there() {
    let all = Listings::all();
    let wanted =
        std::fs::read(concat!(env!("CARGO_MANIFEST_DIR"), "/../samples/listing.out")).expect("the listing");
    assert!(all.output.starts_with(&wanted));
    assert!(all.lines.len() >= 250, "{}", all.lines.len());
    for number in 1..=7 {
        let refused = format!("refused {number}");
        assert!(all.lines.iter().any(|(_, line)| *line == refused), "{refused}");
    }
    let text = String::from_utf8_lossy(&all.output);
    for kind in ["DR", "MP", "MR", "OO", "DV C", "DV E", "NW C", "NW E"] {
        assert!(text.lines().any(|line| line.starts_with(&format!("{kind} "))), "{kind}");
    }
}

/// A sample of the folder `samples`, as the Rust lists it.
fn sample(name: &str) -> String {
    let all = files();
    let (_, bytes) = all.iter().find(|(path, _)| *path == format!("samples/{name}.out")).expect("a sample");
    String::from_utf8(bytes.clone()).expect("text")
}

/// The 835 in a listing: its segments, each as its elements.
fn segments(listing: &str) -> Vec<Vec<&str>> {
    let lines = listing.lines().skip_while(|line| !line.starts_with("ISA*"));
    lines.map(|line| line.trim_end_matches('~').split('*').collect()).collect()
}

/// An amount in cents; an empty one is none.
fn cents(text: &str) -> i64 {
    if text.is_empty() {
        return 0;
    }
    let (whole, part) = text.split_once('.').unwrap_or((text, ""));
    assert!(part.len() <= 2 && !whole.starts_with('-'), "{text}");
    whole.parse::<i64>().expect("a number") * 100 + format!("{part:0<2}").parse::<i64>().expect("cents")
}

/// An element of a segment, empty past its last.
fn element<'a>(segment: &[&'a str], number: usize) -> &'a str {
    segment.get(number).copied().unwrap_or("")
}

/// A claim or a service line: what was charged, paid, and taken off by the CAS segments below it.
#[derive(Default)]
struct Balance {
    charged: i64,
    paid: i64,
    adjusted: i64,
    of_patient: i64,
}

impl Balance {
    fn adjust(&mut self, cas: &[&str]) {
        for amount in (3..cas.len()).step_by(3) {
            self.adjusted += cents(cas[amount]);
            if cas[1] == "PR" {
                self.of_patient += cents(cas[amount]);
            }
        }
    }
}

/// The sample remittance is complete, has no finding, and balances to the cent: BPR02, each claim and each service line.
#[test]
fn the_sample_remittance_balances() {
    let text = include_str!("../../samples/remittance.txt");
    let job = job::parse(text.as_bytes()).expect("a sample is a job");
    assert!(job::complete::gap(&job).is_none());
    let listing = sample("remittance");
    let done = listing.lines().next().expect("a line");
    assert_eq!(done.split(' ').nth(3), Some("0"), "no finding: {done}");

    let (mut payment, mut claims, mut lines, mut in_line) = (0, Vec::new(), Vec::new(), false);
    for segment in segments(&listing) {
        match segment[0] {
            "BPR" => payment = cents(element(&segment, 2)),
            "CLP" => {
                in_line = false;
                let (charged, paid) = (cents(element(&segment, 3)), cents(element(&segment, 4)));
                claims.push((Balance { charged, paid, ..Balance::default() }, cents(element(&segment, 5))));
            }
            "SVC" => {
                in_line = true;
                let (charged, paid) = (cents(element(&segment, 2)), cents(element(&segment, 3)));
                lines.push(Balance { charged, paid, ..Balance::default() });
            }
            "CAS" => {
                claims.last_mut().expect("a claim above").0.adjust(&segment);
                if in_line {
                    lines.last_mut().expect("a line above").adjust(&segment);
                }
            }
            _ => {}
        }
    }
    assert_eq!((claims.len(), lines.len()), (3, 3));
    assert_eq!(payment, claims.iter().map(|(claim, _)| claim.paid).sum::<i64>());
    for (claim, of_patient) in &claims {
        assert_eq!(claim.charged - claim.adjusted, claim.paid);
        assert_eq!(claim.of_patient, *of_patient);
    }
    for line in &lines {
        assert_eq!(line.charged - line.adjusted, line.paid);
    }
}

/// The second sample has a finding of each kind.
#[test]
fn the_sample_with_findings_has_each_kind() {
    let listing = sample("findings");
    for kind in ["DR ", "MP ", "MR ", "OO ", "DV ", "NW "] {
        assert!(listing.lines().any(|line| line.starts_with(kind)), "{kind}");
    }
}
