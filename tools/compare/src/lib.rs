//! Two sides on the same jobs: the proved functions of the static library, and the tools' own.
//!
//! - [`subject`]: what is compared; a new comparison is one more [`Subject`];
//! - `nesting`, `writing`: the subjects `nest` and `write`, with the Rust's sources at hand;
//! - `records`: what the Rust gave, as the numbers of the lent lists;
//! - [`kept`]: the subject `kept`, that nothing is lost of what `write` gives;
//! - [`lent`]: lists to lend, of many lengths, that tell what was touched;
//! - [`run`]: the jobs, the summary and the first difference;
//! - [`smallest`]: a byte string made smaller while it keeps its difference.

pub mod kept;
pub mod lent;
#[cfg(feature = "oracle")]
pub mod nesting;
#[cfg(feature = "oracle")]
pub mod records;
pub mod run;
pub mod smallest;
pub mod subject;
#[cfg(feature = "oracle")]
pub mod writing;

pub use kept::Kept;
#[cfg(feature = "oracle")]
pub use nesting::Nest;
pub use run::{Summary, run};
pub use smallest::smallest;
pub use subject::{Agreed, Check, Plan, Subject};
#[cfg(feature = "oracle")]
pub use writing::Write;
