//! Brings the Rust's sources and the stand-ins together in the build's own folder, where a crate
//! takes them from. The sources come from the folder that `OXEDI_SRC` names (from the repository's
//! root on, if it is relative), by default `../shared/docs/src`.

use std::path::{Path, PathBuf};
use std::{env, fs};

/// A line of a patch.
pub struct Line {
    pub file: &'static str,
    /// The line it is about, without the blanks around it.
    pub line: &'static str,
    /// How often that line stands in the file.
    pub times: usize,
    pub place: Place,
    /// The line put there.
    pub put: &'static str,
}

#[derive(Clone, Copy, PartialEq)]
#[allow(dead_code)]
pub enum Place {
    Before,
    After,
    Instead,
}

/// The Rust's files that are compiled.
const FILES: &[&str] = &[
    "column/mod.rs",
    "column/parse.rs",
    "delimiters/mod.rs",
    "spec/loops.rs",
    "spec/mod.rs",
    "spec/occurrences.rs",
    "spec/render.rs",
    "spec/segments.rs",
    "spec/tables.rs",
    "write/cells.rs",
    "write/data.rs",
    "write/emit.rs",
    "write/envelope.rs",
    "write/finding.rs",
    "write/layout.rs",
    "write/nest.rs",
    "write/plan.rs",
    "write/refusal.rs",
    "write/render.rs",
    "write/trace.rs",
    "write/walk.rs",
];

/// What stands in for modules that aren't there, or that neither `nest` nor `Emitter::run` calls.
const STAND_INS: &[&str] = &[
    "column/table.rs",
    "diagnostic.rs",
    "document.rs",
    "frame.rs",
    "project.rs",
    "segment.rs",
    "spec/balance.rs",
    "spec/balance_error.rs",
    "spec/build.rs",
    "spec/columns.rs",
    "spec/compile.rs",
    "spec/error.rs",
    "spec/occurrence_error.rs",
    "spec/patch.rs",
    "spec/raw.rs",
    "spec/shape.rs",
    "spec/table_error.rs",
    "spec/version.rs",
    "write/mod.rs",
];

/// The modules at the root of the crate.
const MODULES: &[(&str, &str)] = &[
    ("column", "column/mod.rs"),
    ("delimiters", "delimiters/mod.rs"),
    ("diagnostic", "diagnostic.rs"),
    ("document", "document.rs"),
    ("frame", "frame.rs"),
    ("project", "project.rs"),
    ("segment", "segment.rs"),
    ("spec", "spec/mod.rs"),
    ("write", "write/mod.rs"),
];

fn read(path: &Path) -> String {
    println!("cargo::rerun-if-changed={}", path.display());
    match fs::read_to_string(path) {
        Ok(text) => text,
        Err(error) => {
            panic!("{}: {error}; set OXEDI_SRC to the folder of the Rust's sources", path.display())
        }
    }
}

fn write(path: &Path, text: &str) {
    let folder = path.parent().expect("a file stands in a folder");
    fs::create_dir_all(folder).expect("the build's folder can be written");
    fs::write(path, text).expect("the build's folder can be written");
}

/// The text of a file with the lines of a patch put in.
fn patched(file: &str, text: String, patch: &[Line]) -> String {
    let mut lines: Vec<String> = text.lines().map(str::to_string).collect();
    for line in patch.iter().filter(|line| line.file == file) {
        let found = lines.iter().filter(|other| other.trim() == line.line).count();
        assert!(
            found == line.times,
            "patch of {file}: the line `{}` stands there {found} times, not {}",
            line.line,
            line.times
        );
        let mut put = Vec::with_capacity(lines.len() + found);
        for other in lines {
            let here = other.trim() == line.line;
            if here && line.place != Place::After {
                put.push(line.put.to_string());
            }
            if !here || line.place != Place::Instead {
                put.push(other);
            }
            if here && line.place == Place::After {
                put.push(line.put.to_string());
            }
        }
        lines = put;
    }
    if patch.iter().all(|line| line.file != file) { text } else { lines.join("\n") + "\n" }
}

/// Puts the crate's sources into the build's folder, and the list of its modules beside them.
pub fn assemble(patch: &[Line]) {
    println!("cargo::rerun-if-env-changed=OXEDI_SRC");
    let here = PathBuf::from(env::var_os("CARGO_MANIFEST_DIR").expect("cargo gives it"));
    let out = PathBuf::from(env::var_os("OUT_DIR").expect("cargo gives it"));
    let oracle = here.parent().expect("the crate stands in oracle/");
    let root = oracle.parent().and_then(Path::parent).expect("oracle/ stands in tools/");
    let given = env::var_os("OXEDI_SRC").unwrap_or("../shared/docs/src".into());
    let sources = root.join(given).join("crates/oxedi_core/src");
    for line in patch {
        assert!(FILES.contains(&line.file), "patch of {}: no such file", line.file);
    }
    for file in FILES {
        let text = read(&sources.join(file));
        write(&out.join("src").join(file), &patched(file, text, patch));
    }
    for file in STAND_INS {
        write(&out.join("src").join(file), &read(&oracle.join("stand").join(file)));
    }
    for specs in ["835.json", "835.4010.json"] {
        write(&out.join("specs").join(specs), "null");
    }
    let mut modules = String::new();
    for (name, file) in MODULES {
        let path = out.join("src").join(file);
        modules.push_str(&format!("#[path = {:?}]\npub mod {name};\n", path.display().to_string()));
    }
    write(&out.join("modules.rs"), &modules);
}
