//! Functions of SQL that make accumulators, and what they are made with.

use std::sync::Arc;

use arrow::datatypes::{DataType, FieldRef, Schema};
use datafusion_common::Result;
use datafusion_physical_expr_common::sort_expr::PhysicalSortExpr;

use crate::utils::AggregateOrderSensitivity;
use crate::{Accumulator, Documentation, Expr, GroupsAccumulator, Signature};

/// What an accumulator is made with.
pub struct AccumulatorArgs<'a> {
    pub return_field: FieldRef,
    pub schema: &'a Schema,
    pub ignore_nulls: bool,
    pub order_bys: &'a [PhysicalSortExpr],
}

/// What the fields of a state are named by.
pub struct StateFieldsArgs<'a> {
    pub name: &'a str,
    pub return_field: FieldRef,
    pub ordering_fields: &'a [FieldRef],
}

impl StateFieldsArgs<'_> {
    pub fn return_type(&self) -> &DataType {
        self.return_field.data_type()
    }
}

/// What a planner may put in a function's place to read rows from the other end.
pub enum ReversedUDAF {
    Reversed(Arc<AggregateUDF>),
}

/// A function of SQL that makes accumulators.
pub trait AggregateUDFImpl: std::fmt::Debug + Send + Sync {
    fn name(&self) -> &str;

    fn signature(&self) -> &Signature;

    fn return_type(&self, arg_types: &[DataType]) -> Result<DataType>;

    fn return_field(&self, arg_fields: &[FieldRef]) -> Result<FieldRef>;

    fn accumulator(&self, acc_args: AccumulatorArgs) -> Result<Box<dyn Accumulator>>;

    fn state_fields(&self, args: StateFieldsArgs) -> Result<Vec<FieldRef>>;

    fn groups_accumulator_supported(&self, args: AccumulatorArgs) -> bool;

    fn create_groups_accumulator(
        &self,
        args: AccumulatorArgs,
    ) -> Result<Box<dyn GroupsAccumulator>>;

    fn with_beneficial_ordering(
        self: Arc<Self>,
        beneficial_ordering: bool,
    ) -> Result<Option<Arc<dyn AggregateUDFImpl>>>;

    fn order_sensitivity(&self) -> AggregateOrderSensitivity;

    fn reverse_expr(&self) -> ReversedUDAF;

    fn supports_null_handling_clause(&self) -> bool;

    fn documentation(&self) -> Option<&Documentation>;
}

/// A function of SQL behind one type.
#[derive(Debug)]
pub struct AggregateUDF {
    inner: Arc<dyn AggregateUDFImpl>,
}

impl AggregateUDF {
    /// The function itself.
    pub fn inner(&self) -> Arc<dyn AggregateUDFImpl> {
        Arc::clone(&self.inner)
    }

    /// A call of it in a plan.
    pub fn call(&self, _arguments: Vec<Expr>) -> Expr {
        Expr
    }
}

impl<F: AggregateUDFImpl + 'static> From<F> for AggregateUDF {
    fn from(function: F) -> Self {
        AggregateUDF {
            inner: Arc::new(function),
        }
    }
}
