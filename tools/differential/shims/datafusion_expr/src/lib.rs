//! A small stand-in for the crate of this name: accumulators, the functions that make them, and bare names for what a planner
//! asks.

mod accumulators;
mod expressions;
pub mod function;
pub mod utils;

pub use accumulators::{Accumulator, EmitTo, GroupsAccumulator};
pub use expressions::{Documentation, Expr, ExprFunctionExt, Signature, SortExpr, Volatility};
pub use function::{AggregateUDF, AggregateUDFImpl, ReversedUDAF};
