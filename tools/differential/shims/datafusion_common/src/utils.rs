//! Rows: lists of cells, a cell for each column.

use std::cmp::Ordering;

use arrow::array::ArrayRef;
use arrow::compute::{SortOptions, compare_cells};

use crate::{Result, ScalarValue, internal_err};

/// The cells of some columns at a row.
pub fn get_row_at_idx(columns: &[ArrayRef], row: usize) -> Result<Vec<ScalarValue>> {
    columns
        .iter()
        .map(|column| ScalarValue::try_from_array(column, row))
        .collect()
}

/// The same, into a list whose old content goes.
pub fn extract_row_at_idx_to_buf(
    columns: &[ArrayRef],
    row: usize,
    cells: &mut Vec<ScalarValue>,
) -> Result<()> {
    *cells = get_row_at_idx(columns, row)?;
    Ok(())
}

/// Compares two keys. The rule: columns are compared one after another, and the first that differs decides; nulls are equal
/// to each other, and lie below every value where nulls come first, else above; `descending` turns values round, not nulls;
/// byte strings are compared unsigned byte by byte, a proper prefix being smaller.
pub fn compare_rows(
    left: &[ScalarValue],
    right: &[ScalarValue],
    options: &[SortOptions],
) -> Result<Ordering> {
    for ((left, right), options) in left.iter().zip(right).zip(options) {
        let verdict = match (left, right) {
            (ScalarValue::Int64(left), ScalarValue::Int64(right)) => {
                compare_cells(*left, *right, *options)
            }
            (ScalarValue::Binary(left), ScalarValue::Binary(right)) => {
                compare_cells(left.as_deref(), right.as_deref(), *options)
            }
            _ => return internal_err!("no comparison of {left:?} with {right:?} here"),
        };
        if verdict.is_ne() {
            return Ok(verdict);
        }
    }
    Ok(Ordering::Equal)
}
