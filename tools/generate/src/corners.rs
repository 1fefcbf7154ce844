//! Corners of the Rust, one short job each, in the text form (`corners.txt`).

const TEXT: &str = include_str!("corners.txt");

/// Name and text of every corner.
pub fn corners() -> impl Iterator<Item = (&'static str, &'static str)> {
    TEXT.split("\n== ").skip(1).map(|part| part.split_once('\n').expect("a name ends its line"))
}
