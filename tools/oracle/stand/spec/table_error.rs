//! Stands in: why a table can't be read, which is left out.

pub struct AnchorChains;
pub struct AnchorPositions;
pub struct LoopSegments;
pub struct TableDefError;
