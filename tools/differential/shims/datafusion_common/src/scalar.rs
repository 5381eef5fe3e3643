//! Single cells.

use std::mem::{size_of, size_of_val};
use std::sync::Arc;

use arrow::array::{
    Array, ArrayRef, AsArray, BinaryArray, BooleanArray, Int64Array, Record, StructArray,
};
use arrow::buffer::{BooleanBuffer, NullBuffer};
use arrow::datatypes::{DataType, Int64Type};

use crate::{DataFusionError, Result, internal_err};

/// One cell of a column: null, or a value.
#[derive(Debug, Clone, PartialEq)]
pub enum ScalarValue {
    /// The null of no type.
    Null,
    Boolean(Option<bool>),
    Int64(Option<i64>),
    Binary(Option<Vec<u8>>),
    /// A record, with the type of its column.
    Struct(Option<Record>, DataType),
}

impl ScalarValue {
    /// The cell of an array at a row; a null is the null of the array's type.
    pub fn try_from_array(array: &dyn Array, row: usize) -> Result<Self> {
        let there = array.is_valid(row);
        Ok(match array.data_type() {
            DataType::Boolean => ScalarValue::Boolean(there.then(|| array.as_boolean().value(row))),
            DataType::Int64 => {
                ScalarValue::Int64(there.then(|| array.as_primitive::<Int64Type>().value(row)))
            }
            DataType::Binary => {
                ScalarValue::Binary(there.then(|| array.as_binary::<i32>().value(row).to_vec()))
            }
            DataType::Struct(_) => {
                let array = array.as_struct();
                ScalarValue::Struct(array.cells[row], array.data_type.clone())
            }
            other => return internal_err!("no cells of {other} here"),
        })
    }

    pub fn is_null(&self) -> bool {
        match self {
            ScalarValue::Null => true,
            ScalarValue::Boolean(cell) => cell.is_none(),
            ScalarValue::Int64(cell) => cell.is_none(),
            ScalarValue::Binary(cell) => cell.is_none(),
            ScalarValue::Struct(cell, _) => cell.is_none(),
        }
    }

    /// Gives back room that the cell does not need; cells here hold nothing but themselves.
    pub fn compact(&mut self) {}

    /// The bytes that a cell occupies.
    pub fn size(&self) -> usize {
        size_of_val(self)
            + match self {
                ScalarValue::Binary(Some(bytes)) => bytes.capacity(),
                _ => 0,
            }
    }

    /// The bytes that a list of cells occupies.
    pub fn size_of_vec(cells: &Vec<Self>) -> usize {
        let inside: usize = cells
            .iter()
            .map(|cell| cell.size() - size_of_val(cell))
            .sum();
        size_of_val(cells) + size_of::<ScalarValue>() * cells.capacity() + inside
    }

    /// An array of cells of one type; no cell at all is an error, since the type is not known then.
    pub fn iter_to_array(cells: impl IntoIterator<Item = ScalarValue>) -> Result<ArrayRef> {
        let cells: Vec<ScalarValue> = cells.into_iter().collect();
        match cells.first() {
            Some(ScalarValue::Int64(_)) => numbers(&cells),
            Some(ScalarValue::Binary(_)) => byte_strings(cells),
            Some(ScalarValue::Struct(_, data_type)) => {
                let data_type = data_type.clone();
                records(&cells, data_type)
            }
            Some(ScalarValue::Boolean(_)) => truth_values(&cells),
            Some(ScalarValue::Null) => internal_err!("no array of untyped nulls here"),
            None => internal_err!("no array of no cells"),
        }
    }
}

// An array of numbers; zero stands under a null.
fn numbers(cells: &[ScalarValue]) -> Result<ArrayRef> {
    let mut values = Vec::new();
    let mut valid = Vec::new();
    for cell in cells {
        let ScalarValue::Int64(cell) = cell else {
            return internal_err!("cells of several types");
        };
        values.push(cell.unwrap_or_default());
        valid.push(cell.is_some());
    }
    let nulls = NullBuffer::new(BooleanBuffer::from(valid));
    Ok(Arc::new(Int64Array::new(values.into(), Some(nulls))))
}

// An array of byte strings.
fn byte_strings(cells: Vec<ScalarValue>) -> Result<ArrayRef> {
    let mut strings = Vec::new();
    for cell in cells {
        let ScalarValue::Binary(cell) = cell else {
            return internal_err!("cells of several types");
        };
        strings.push(cell);
    }
    Ok(Arc::new(BinaryArray::of_cells(strings)))
}

// An array of records.
fn records(cells: &[ScalarValue], data_type: DataType) -> Result<ArrayRef> {
    let mut records = Vec::new();
    for cell in cells {
        let ScalarValue::Struct(cell, _) = cell else {
            return internal_err!("cells of several types");
        };
        records.push(*cell);
    }
    Ok(Arc::new(StructArray {
        cells: records,
        data_type,
    }))
}

// An array of truth values.
fn truth_values(cells: &[ScalarValue]) -> Result<ArrayRef> {
    let mut values = Vec::new();
    let mut valid = Vec::new();
    for cell in cells {
        let ScalarValue::Boolean(cell) = cell else {
            return internal_err!("cells of several types");
        };
        values.push(cell.unwrap_or_default());
        valid.push(cell.is_some());
    }
    let nulls = NullBuffer::new(BooleanBuffer::from(valid));
    Ok(Arc::new(BooleanArray::new(values.into(), Some(nulls))))
}

impl From<bool> for ScalarValue {
    fn from(value: bool) -> Self {
        ScalarValue::Boolean(Some(value))
    }
}

impl TryFrom<&DataType> for ScalarValue {
    type Error = DataFusionError;

    /// The null of a type.
    fn try_from(data_type: &DataType) -> Result<Self> {
        Ok(match data_type {
            DataType::Null => ScalarValue::Null,
            DataType::Boolean => ScalarValue::Boolean(None),
            DataType::Int64 => ScalarValue::Int64(None),
            DataType::Binary => ScalarValue::Binary(None),
            DataType::Struct(_) => ScalarValue::Struct(None, data_type.clone()),
            other => return internal_err!("no cells of {other} here"),
        })
    }
}
