//! Arrays of a certain kind.

use arrow::array::{Array, BooleanArray};

use crate::{Result, internal_err};

/// An array as one of truth values.
pub fn as_boolean_array(array: &dyn Array) -> Result<&BooleanArray> {
    match array.as_any().downcast_ref() {
        Some(array) => Ok(array),
        None => internal_err!("not an array of truth values: {}", array.data_type()),
    }
}
