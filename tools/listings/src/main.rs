//! `listings [ROOT]` writes the samples of the programs `advise`, `plan_check` and `replay` with the Rust's listings of
//! them into the repository, by default the one that this folder stands in; `listings --check [ROOT]` says whether they
//! are as they would be written.

use std::process::ExitCode;
use vectors::program;

const ROOT: &str = concat!(env!("CARGO_MANIFEST_DIR"), "/../..");

fn main() -> ExitCode {
    program("listings", ROOT, listings::files)
}
