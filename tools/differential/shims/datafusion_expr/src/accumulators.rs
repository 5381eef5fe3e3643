//! Accumulators by groups and without groups.

use arrow::array::{ArrayRef, BooleanArray};
use datafusion_common::{Result, ScalarValue};

/// How many groups leave.
#[derive(Debug, Clone, Copy)]
pub enum EmitTo {
    All,
    First(usize),
}

impl EmitTo {
    /// Takes the entries of the groups that leave out of a list. The rule: with `All` every entry goes; with `First(n)` the
    /// first n, and those left keep their order. More than there are is a panic.
    pub fn take_needed<T>(&self, entries: &mut Vec<T>) -> Vec<T> {
        match self {
            EmitTo::All => std::mem::take(entries),
            EmitTo::First(count) => entries.drain(..*count).collect(),
        }
    }
}

/// One accumulator for many groups.
pub trait GroupsAccumulator: Send {
    fn update_batch(
        &mut self,
        values: &[ArrayRef],
        group_indices: &[usize],
        opt_filter: Option<&BooleanArray>,
        total_num_groups: usize,
    ) -> Result<()>;

    fn evaluate(&mut self, emit_to: EmitTo) -> Result<ArrayRef>;

    fn state(&mut self, emit_to: EmitTo) -> Result<Vec<ArrayRef>>;

    fn merge_batch(
        &mut self,
        values: &[ArrayRef],
        group_indices: &[usize],
        total_num_groups: usize,
    ) -> Result<()>;

    fn convert_to_state(
        &self,
        values: &[ArrayRef],
        opt_filter: Option<&BooleanArray>,
    ) -> Result<Vec<ArrayRef>>;

    fn size(&self) -> usize;
}

/// An accumulator of one group.
pub trait Accumulator: Send + Sync + std::fmt::Debug {
    fn update_batch(&mut self, values: &[ArrayRef]) -> Result<()>;

    fn merge_batch(&mut self, states: &[ArrayRef]) -> Result<()>;

    fn evaluate(&mut self) -> Result<ScalarValue>;

    fn state(&mut self) -> Result<Vec<ScalarValue>>;

    fn size(&self) -> usize;
}
