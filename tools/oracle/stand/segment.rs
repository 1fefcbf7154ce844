//! Stands in: segments that are read, which a write has none of.

pub struct Segment<'a> {
    pub id: &'a [u8],
}

impl Segment<'_> {
    pub fn holds(&self, _: &[(usize, Vec<u8>)]) -> bool {
        false
    }

    pub fn leaf(&self, _: usize, _: Option<usize>) -> Option<&[u8]> {
        None
    }
}
