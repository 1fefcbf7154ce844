//! Files that a program writes, or holds to what it would write.

use std::path::{Path, PathBuf};
use std::process::ExitCode;

/// The files by their place in a folder, and their bytes.
pub type Files = Vec<(&'static str, Vec<u8>)>;

/// A program `NAME [--check] [FOLDER]`: writes the files into a folder, or says whether they are as they would be
/// written.
pub fn program(name: &str, folder: &str, files: impl FnOnce() -> Files) -> ExitCode {
    let mut args: Vec<String> = std::env::args().skip(1).collect();
    let check = args.first().is_some_and(|arg| arg == "--check");
    if check {
        args.remove(0);
    }
    if args.len() > 1 {
        eprintln!("usage: {name} [--check] [FOLDER]");
        return ExitCode::from(2);
    }
    let folder = args.first().map_or_else(|| PathBuf::from(folder), PathBuf::from);
    for (file, bytes) in files() {
        let path = folder.join(file);
        let done = if check { holds(name, &path, &bytes) } else { std::fs::write(&path, &bytes) };
        if let Err(error) = done {
            eprintln!("{name}: {}: {error}", path.display());
            return ExitCode::FAILURE;
        }
        println!("{file}: {} bytes", bytes.len());
    }
    ExitCode::SUCCESS
}

fn holds(name: &str, path: &Path, bytes: &[u8]) -> std::io::Result<()> {
    if std::fs::read(path)? == bytes {
        return Ok(());
    }
    Err(std::io::Error::other(format!("not as it would be written now: run `{name}`")))
}
