//! What a copy of the Rust hands back, in a form that both copies share.

/// The outcome of one run.
#[derive(Debug, Clone, PartialEq, Eq)]
pub struct Written {
    pub document: Vec<u8>,
    /// By segment: its first trace entry, and the table and row it comes from.
    pub segments: Vec<(usize, Option<(usize, usize)>)>,
    /// The whole trace as the Rust shows it.
    pub trace: String,
    pub findings: Vec<Raw>,
}

/// A finding. A number is none where the Rust holds a name that doesn't give it.
#[derive(Debug, Clone, PartialEq, Eq)]
pub struct Raw {
    pub kind: Kind,
    /// As the finding's line in the listing has them (docs/RULES.md, "The listing"), without the place.
    pub numbers: Vec<Option<i128>>,
    /// The finding as the Rust shows it.
    pub shown: String,
}

#[derive(Debug, Clone, Copy, PartialEq, Eq)]
pub enum Kind {
    DuplicateKey,
    MissingParent,
    OutOfOrder,
    MismatchedReference,
    /// Of a cell, or else of the envelope.
    Delimiter {
        cell: bool,
    },
    NotWritable {
        cell: bool,
    },
}
