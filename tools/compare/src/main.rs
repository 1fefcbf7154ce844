//! `compare SUBJECT [COUNT] [SEED] [THREADS] [SECONDS]` runs the proved functions and independent ones on the
//! fixed list and on so many generated jobs, fewer where the time is up, and prints what was covered and the
//! first difference. Subjects: `check`, `plan`, `kept`, and with the Rust's sources `nest` and `write`.

use compare::{Check, Kept, Plan, Subject, run};
use std::process::ExitCode;
use std::time::{Duration, Instant};

fn usage() -> ExitCode {
    eprintln!("usage: compare check|plan|kept|nest|write [COUNT] [SEED] [THREADS] [SECONDS]");
    ExitCode::from(2)
}

fn main() -> ExitCode {
    let args: Vec<String> = std::env::args().skip(1).collect();
    let subject: Box<dyn Subject> = match args.first().map(String::as_str) {
        Some("check") => Box::new(Check::proved()),
        Some("plan") => Box::new(Plan::proved()),
        Some("kept") => Box::new(Kept::proved()),
        #[cfg(feature = "oracle")]
        Some("nest") => Box::new(compare::Nest::proved()),
        #[cfg(feature = "oracle")]
        Some("write") => Box::new(compare::Write::proved()),
        _ => return usage(),
    };
    let mut numbers = [10_000, 1, 1, 3_600];
    for (number, arg) in numbers.iter_mut().zip(&args[1..]) {
        match arg.parse() {
            Ok(given) => *number = given,
            Err(_) => return usage(),
        }
    }
    if !native::is_there() {
        eprintln!("compare: neither the static library nor the program replies is there; see tools/README.md");
        return ExitCode::from(2);
    }
    let [count, seed, threads, seconds] = numbers;
    let start = Instant::now();
    let summary = run(&*subject, count, seed, threads.max(1), Duration::from_secs(seconds));
    let seconds = start.elapsed().as_secs_f64();
    print!("{}", summary.table());
    println!("{}: seed {seed}, {} jobs in {seconds:.1} s", args[0], summary.samples());
    match summary.difference(&*subject) {
        None => ExitCode::SUCCESS,
        Some(difference) => {
            print!("\n{difference}");
            ExitCode::FAILURE
        }
    }
}
