//! The patch, line by line: what is noted, and where. `crate::probe` is in `src/probe.rs`.

use crate::assemble::{Line, Place};

/// Every line named here must stand in its file exactly as often as said.
pub const PATCH: &[Line] = &[
    // An instance is entered.
    Line {
        file: "write/emit.rs",
        line: "fn instance(&mut self, id: LoopId, context: &Context) {",
        times: 1,
        place: Place::After,
        put: "crate::probe::instance(id.index());",
    },
    // A stop: one call of `enter`.
    Line {
        file: "write/emit.rs",
        line: "self.enter(table, row);",
        times: 2,
        place: Place::Before,
        put: "crate::probe::stop(id.index(), table, row);",
    },
    // A counter goes on.
    Line {
        file: "write/emit.rs",
        line: "*counter = counter.saturating_add(1);",
        times: 1,
        place: Place::Instead,
        put: "*counter = crate::probe::next(*counter);",
    },
    // Numbers that findings hold as names, which a table out of range doesn't have.
    Line {
        file: "write/emit.rs",
        line: "self.findings.push(Finding::OutOfOrder {",
        times: 1,
        place: Place::Before,
        put: "crate::probe::number(above);",
    },
    Line {
        file: "write/nest.rs",
        line: "findings.push(Finding::MismatchedReference {",
        times: 1,
        place: Place::Before,
        put: "crate::probe::number(ancestor);",
    },
    Line {
        file: "write/nest.rs",
        line: "let def = spec.tables().get(parent);",
        times: 1,
        place: Place::Before,
        put: "crate::probe::number(parent);",
    },
    // A place: its text doesn't tell `N1` with element 103 from `N11` with element 3.
    Line {
        file: "write/refusal.rs",
        line: "pub(super) fn place(segment: &[u8], element: usize, component: Option<usize>) -> String {",
        times: 1,
        place: Place::After,
        put: "crate::probe::place(segment, element, component);",
    },
    // Work, so that a run can be bounded.
    Line {
        file: "write/emit.rs",
        line: "for &item in order {",
        times: 1,
        place: Place::After,
        put: "crate::probe::work(1);",
    },
    Line {
        file: "write/data.rs",
        line: "pub(super) fn cell(&self, column: usize, row: usize) -> Cell<'t> {",
        times: 1,
        place: Place::After,
        put: "crate::probe::work(1);",
    },
    Line {
        file: "write/data.rs",
        line: "pub(super) fn reference(&self, above: usize, row: usize) -> Option<i64> {",
        times: 1,
        place: Place::After,
        put: "crate::probe::work(1 + self.refs.len() / 8);",
    },
    Line {
        file: "write/walk.rs",
        line: "let mut inner = context.clone();",
        times: 2,
        place: Place::Before,
        put: "crate::probe::work(8);",
    },
    Line {
        file: "write/cells.rs",
        line: "write_segment(id, &self.parts, &self.texts, self.separators, &mut self.out);",
        times: 1,
        place: Place::Before,
        put: "crate::probe::work(8 + self.parts.len() * 4 + self.texts.len() / 8);",
    },
    Line {
        file: "write/cells.rs",
        line: "self.traces.close(row);",
        times: 1,
        place: Place::Before,
        put: "crate::probe::length(self.out.len());",
    },
];
