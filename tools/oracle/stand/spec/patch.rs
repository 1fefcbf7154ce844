//! Stands in: patching a spec, which is left out.

use crate::Value;

pub fn merge_patch(_: &mut Value, _: &Value) {}
