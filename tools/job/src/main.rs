//! `job encode < text > bytes`, `job print < bytes`, `job check < bytes`.

use std::io::{Read as _, Write as _};
use std::process::ExitCode;

fn main() -> ExitCode {
    let mut input = Vec::new();
    if let Err(error) = std::io::stdin().read_to_end(&mut input) {
        return fail(&error.to_string());
    }
    let output = match std::env::args().nth(1).as_deref() {
        Some("encode") => job::parse(&input).map(|job| job::encode(&job)),
        Some("print") => match job::decode(&input) {
            Ok(job) => Ok(job::print(&job).into_bytes()),
            Err(refusal) => Err(format!("refused {}", refusal.number())),
        },
        Some("check") => Ok(match job::check(&input) {
            Ok(_) => b"a job\n".to_vec(),
            Err(refusal) => format!("refused {}\n", refusal.number()).into_bytes(),
        }),
        _ => Err("usage: job encode|print|check".to_string()),
    };
    match output.and_then(|bytes| std::io::stdout().write_all(&bytes).map_err(|error| error.to_string())) {
        Ok(()) => ExitCode::SUCCESS,
        Err(error) => fail(&error),
    }
}

fn fail(message: &str) -> ExitCode {
    eprintln!("job: {message}");
    ExitCode::FAILURE
}
