//! Stands in: reading the spec, which is left out.
