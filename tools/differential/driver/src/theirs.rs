//! Asking the original: how its accumulators are made, and what comes of a call that fails.

use std::panic::{AssertUnwindSafe, catch_unwind};
use std::sync::Arc;

use arrow::array::ArrayRef;
use arrow::datatypes::{Field, Schema};
use datafusion_common::Result;
use datafusion_expr::function::{AccumulatorArgs, AggregateUDFImpl};
use datafusion_expr::{Accumulator, GroupsAccumulator};
use datafusion_physical_expr_common::sort_expr::{PhysicalExpr, PhysicalSortExpr};

use crate::checks::Given;
use crate::scenario::Making;

/// What a call of the original gives, or a word on how it failed.
pub fn ask<T>(call: impl FnOnce() -> Result<T>) -> Result<T, String> {
    match catch_unwind(AssertUnwindSafe(call)) {
        Ok(Ok(answer)) => Ok(answer),
        Ok(Err(error)) => Err(format!("rust-error {error}")),
        Err(panic) => {
            let text = panic.downcast_ref::<String>().map(String::as_str);
            let text = text.or(panic.downcast_ref::<&str>().copied());
            let first = text.unwrap_or("").lines().next();
            Err(format!("rust-panic {}", first.unwrap_or("")))
        }
    }
}

/// The original's FIRST or LAST, for input that is ordered already or not.
fn function(making: &Making) -> Arc<dyn AggregateUDFImpl> {
    let function = match making.first {
        true => original::first_value_udaf(),
        false => original::last_value_udaf(),
    };
    let ordered = function
        .inner()
        .with_beneficial_ordering(making.pre_ordered);
    ordered.expect("an answer").expect("a function")
}

/// Makes something of the original's with the arguments that a making says.
fn with_arguments<T>(making: &Making, make: impl FnOnce(AccumulatorArgs) -> Result<T>) -> T {
    let column = |options: &_| PhysicalSortExpr {
        expr: PhysicalExpr {
            data_type: making.key.data_type(),
        },
        options: *options,
    };
    let order_bys: Vec<PhysicalSortExpr> = making.options.iter().map(column).collect();
    let made = make(AccumulatorArgs {
        return_field: Arc::new(Field::new("value", making.value.data_type(), true)),
        schema: &Schema,
        ignore_nulls: making.ignore_nulls,
        order_bys: &order_bys,
    });
    made.unwrap_or_else(|error| panic!("an accumulator can be made: {error}"))
}

/// A grouped accumulator of the original's.
pub fn grouped(making: &Making) -> Box<dyn GroupsAccumulator> {
    with_arguments(making, |arguments| {
        function(making).create_groups_accumulator(arguments)
    })
}

/// An accumulator of the original's without groups.
pub fn single(making: &Making) -> Box<dyn Accumulator> {
    with_arguments(making, |arguments| function(making).accumulator(arguments))
}

/// The original's arrays of a batch's columns: values, then order columns.
pub fn columns(given: &Given) -> Vec<ArrayRef> {
    let columns = std::iter::once(&given.values).chain(&given.keys);
    columns.map(|column| column.array()).collect()
}

/// The same with the set flags behind them, as a merge takes them.
pub fn columns_and_flags(given: &Given) -> Vec<ArrayRef> {
    let mut columns = columns(given);
    columns.extend(
        given
            .mask
            .iter()
            .map(|mask| Arc::new(mask.array()) as ArrayRef),
    );
    columns
}
