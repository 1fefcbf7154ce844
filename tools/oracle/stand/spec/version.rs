//! Stands in for the version declaration: its first value is all that a write reads.

use super::Spec;

#[derive(Debug, Clone)]
pub struct DeclaredVersion {
    pub segment: Vec<u8>,
    pub element: usize,
    pub values: Vec<Vec<u8>>,
}

pub struct VersionError;

impl Spec {
    pub fn version(&self) -> Option<&DeclaredVersion> {
        self.version.as_ref()
    }
}
