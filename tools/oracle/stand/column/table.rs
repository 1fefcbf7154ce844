//! Stands in for the tables, which are left out; makes columns from a job's.

use super::{Bitmap, Column, ColumnData, DECIMAL_PRECISION};

pub struct RowError;

pub struct Table {
    name: String,
    columns: Vec<(String, ColumnData)>,
}

impl Table {
    pub fn name(&self) -> &str {
        &self.name
    }

    pub fn columns(&self) -> &[(String, ColumnData)] {
        &self.columns
    }

    #[allow(clippy::len_without_is_empty)]
    pub fn len(&self) -> usize {
        0
    }
}

pub struct Tables(Vec<Table>);

impl Tables {
    pub fn get(&self, name: &str) -> Option<&Table> {
        self.0.iter().find(|table| table.name == name)
    }
}

impl<'a> IntoIterator for &'a Tables {
    type Item = &'a Table;
    type IntoIter = std::slice::Iter<'a, Table>;

    fn into_iter(self) -> Self::IntoIter {
        self.0.iter()
    }
}

impl ColumnData {
    /// A job's column, list by list.
    pub(crate) fn of(column: &job::Column) -> ColumnData {
        let values = match &column.values {
            job::Values::Binary(offsets, data) => {
                Column::Binary { offsets: offsets.clone(), data: data.clone() }
            }
            job::Values::Int64(values, scale) => Column::Int64 { values: values.clone(), scale: *scale },
            job::Values::Decimal128(values, scale) => {
                Column::Decimal128 { values: values.clone(), precision: DECIMAL_PRECISION, scale: *scale }
            }
            job::Values::Date32(values) => Column::Date32(values.clone()),
            job::Values::Time32(values) => Column::Time32(values.clone()),
        };
        let bytes = column.validity.bytes.clone();
        ColumnData { column: values, validity: Bitmap { bytes, len: column.validity.len as usize } }
    }
}
