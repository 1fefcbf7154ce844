//! Brings the sources together, with the lines that count and note.

#[path = "../assemble.rs"]
mod assemble;
mod patch;

fn main() {
    assemble::assemble(patch::PATCH);
}
