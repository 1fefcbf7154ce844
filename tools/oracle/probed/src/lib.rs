//! The Rust with the named lines of its patch (`patch.rs`), which count instances and note stops.
#![allow(dead_code, unused_imports)]

extern crate self as serde_json;

include!(concat!(env!("OUT_DIR"), "/modules.rs"));

#[path = "../../stand/json.rs"]
mod json;
pub use json::*;

pub mod probe;

pub use write::run;
