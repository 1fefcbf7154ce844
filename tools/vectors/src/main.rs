//! `vectors [FOLDER]` writes `stdin` and `stdout` of the program that replays bad input, by default
//! into `../crates/verdicts`; `vectors --check [FOLDER]` says whether they are as they would be written.

use std::process::ExitCode;
use vectors::{Vectors, program};

const FOLDER: &str = concat!(env!("CARGO_MANIFEST_DIR"), "/../../crates/verdicts");

fn main() -> ExitCode {
    program("vectors", FOLDER, || {
        let all = Vectors::all();
        vec![("stdin", all.input), ("stdout", all.output.into_bytes())]
    })
}
