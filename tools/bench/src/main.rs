//! `bench [MILLISECONDS]` times the proved functions and the tools' own on the same jobs, by turns, from
//! one driver, so long a side and round. The best of a hundred rounds counts, so that other work on the machine
//! shows little.

use bench::{jobs, nanoseconds};
use std::hint::black_box;
use std::time::Duration;

const ROUNDS: usize = 100;

fn main() {
    let length = std::env::args().nth(1).map_or(Ok(2), |arg| arg.parse());
    let Ok(length) = length.map(Duration::from_millis) else {
        eprintln!("usage: bench [MILLISECONDS]");
        std::process::exit(2);
    };
    if !native::LINKED {
        eprintln!("bench: built without the static library; see tools/README.md");
        std::process::exit(2);
    }
    println!("check: nanoseconds a job, the proved one and the tools' own (which builds the job's tree)");
    println!("{:34} {:>7} {:>6} {:>10} {:>10} {:>7}", "job", "bytes", "answer", "proved", "own", "ratio");
    for (name, bytes) in jobs() {
        let proved = || native::check(black_box(&bytes));
        let own = || job::check(black_box(&bytes)).map_or_else(|refusal| u32::from(refusal.number()), |_| 0);
        assert_eq!(proved(), own(), "{name}");
        let (mut fast, mut slow) = (f64::MAX, f64::MAX);
        for _ in 0..ROUNDS {
            fast = fast.min(nanoseconds(length, proved));
            slow = slow.min(nanoseconds(length, own));
        }
        println!("{name:34} {:>7} {:>6} {fast:>10.0} {slow:>10.0} {:>7.2}", bytes.len(), own(), slow / fast);
    }
    #[cfg(feature = "oracle")]
    {
        println!();
        bench::writing::table(length, ROUNDS / 4);
    }
}
