//! Stands in: the columns that binding by name asks for, which is left out.

use crate::column::ColumnType;
use crate::spec::{Spec, TableDef};

pub fn table_columns(_: &Spec, _: &TableDef) -> Vec<(String, ColumnType)> {
    Vec::new()
}
