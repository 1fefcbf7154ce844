//! Stands in: what reading delimiters from a file uses.

pub const BYTE_ORDER_MARK: &[u8] = &[];

pub fn leading_trivia(_: &[u8]) -> usize {
    0
}
