//! `oracle < bytes` prints the listing of a job (docs/RULES.md, "The listing"), as the Rust makes it.

use std::io::{Read as _, Write as _};
use std::process::ExitCode;

fn main() -> ExitCode {
    let mut input = Vec::new();
    let read = std::io::stdin().read_to_end(&mut input).map_err(|error| error.to_string());
    let output = read.and_then(|_| oracle::program(&input, oracle::Bound::WIDE));
    match output.and_then(|bytes| std::io::stdout().write_all(&bytes).map_err(|error| error.to_string())) {
        Ok(()) => ExitCode::SUCCESS,
        Err(error) => {
            eprintln!("oracle: {error}");
            ExitCode::FAILURE
        }
    }
}
