//! Brings the sources together, unchanged.

#[path = "../assemble.rs"]
mod assemble;

fn main() {
    assemble::assemble(&[]);
}
