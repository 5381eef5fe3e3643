//! Comparing rows by columns, and keeping the rows that a predicate names.

use std::cmp::Ordering;
use std::sync::Arc;

use crate::array::{Array, ArrayRef, AsArray, BinaryArray, BooleanArray, Int64Array, StructArray};
use crate::buffer::{BooleanBuffer, NullBuffer};
use crate::datatypes::{DataType, Int64Type};
use crate::error::ArrowError;

/// How a column's cells are ordered: whether values are turned round, and whether nulls come before them.
#[derive(Debug, Clone, Copy, PartialEq, Eq, Hash)]
pub struct SortOptions {
    pub descending: bool,
    pub nulls_first: bool,
}

impl Default for SortOptions {
    fn default() -> Self {
        SortOptions {
            descending: false,
            nulls_first: true,
        }
    }
}

/// An order column and how it is ordered.
#[derive(Debug, Clone)]
pub struct SortColumn {
    pub values: ArrayRef,
    pub options: Option<SortOptions>,
}

/// Two cells by one column's options. The rule: nulls are equal to each other, and lie below every value where nulls come
/// first, else above; `descending` turns values round, not nulls.
pub fn compare_cells<T: Ord>(left: Option<T>, right: Option<T>, options: SortOptions) -> Ordering {
    match (left, right) {
        (None, None) => Ordering::Equal,
        (None, Some(_)) if options.nulls_first => Ordering::Less,
        (None, Some(_)) => Ordering::Greater,
        (Some(_), None) if options.nulls_first => Ordering::Greater,
        (Some(_), None) => Ordering::Less,
        (Some(left), Some(right)) if options.descending => right.cmp(&left),
        (Some(left), Some(right)) => left.cmp(&right),
    }
}

/// Compares two rows of the same columns. The rule: columns are compared one after another, and the first that differs
/// decides. Numbers are ordered as numbers; byte strings unsigned byte by byte, a proper prefix being smaller.
pub struct LexicographicalComparator {
    columns: Vec<SortColumn>,
}

impl LexicographicalComparator {
    pub fn try_new(columns: &[SortColumn]) -> Result<Self, ArrowError> {
        for column in columns {
            if !matches!(
                column.values.data_type(),
                DataType::Int64 | DataType::Binary
            ) {
                let what = format!("an order of {}", column.values.data_type());
                return Err(ArrowError::NotYetImplemented(what));
            }
        }
        Ok(LexicographicalComparator {
            columns: columns.to_vec(),
        })
    }

    pub fn compare(&self, left: usize, right: usize) -> Ordering {
        self.columns
            .iter()
            .map(|column| compare_rows_of(column, left, right))
            .find(|verdict| verdict.is_ne())
            .unwrap_or(Ordering::Equal)
    }
}

// Two rows by one column.
fn compare_rows_of(column: &SortColumn, left: usize, right: usize) -> Ordering {
    let options = column.options.unwrap_or_default();
    let values = &column.values;
    if values.data_type() == &DataType::Binary {
        let cells = values.as_binary::<i32>();
        let cell = |row| values.is_valid(row).then(|| cells.value(row));
        compare_cells(cell(left), cell(right), options)
    } else {
        let cells = values.as_primitive::<Int64Type>();
        let cell = |row| values.is_valid(row).then(|| cells.value(row));
        compare_cells(cell(left), cell(right), options)
    }
}

/// The rows of an array where the predicate is true; false and null drop a row.
pub fn filter(values: &dyn Array, predicate: &BooleanArray) -> Result<ArrayRef, ArrowError> {
    if predicate.len() > values.len() {
        let what = "a predicate longer than the array".to_string();
        return Err(ArrowError::InvalidArgumentError(what));
    }
    let kept: Vec<usize> = (0..predicate.len())
        .filter(|row| predicate.is_valid(*row) && predicate.value(*row))
        .collect();
    match values.data_type() {
        DataType::Int64 => {
            let cells = values.as_primitive::<Int64Type>();
            let numbers: Vec<i64> = kept.iter().map(|row| cells.value(*row)).collect();
            let valid: Vec<bool> = kept.iter().map(|row| cells.is_valid(*row)).collect();
            let nulls = NullBuffer::new(BooleanBuffer::from(valid));
            Ok(Arc::new(Int64Array::new(numbers.into(), Some(nulls))))
        }
        DataType::Binary => {
            let cells = values.as_binary::<i32>();
            let cells = kept.iter().map(|row| cells.cells[*row].clone()).collect();
            Ok(Arc::new(BinaryArray::of_cells(cells)))
        }
        DataType::Struct(_) => {
            let cells = values.as_struct();
            Ok(Arc::new(StructArray {
                cells: kept.iter().map(|row| cells.cells[*row]).collect(),
                data_type: cells.data_type.clone(),
            }))
        }
        other => Err(ArrowError::NotYetImplemented(format!(
            "a filter of {other}"
        ))),
    }
}
