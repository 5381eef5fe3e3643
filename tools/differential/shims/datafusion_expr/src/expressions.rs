//! What a planner handles: names alone, since nothing here plans.

use datafusion_common::Result;

#[derive(Debug, Clone)]
pub struct Expr;

#[derive(Debug, Clone)]
pub struct SortExpr;

#[derive(Debug)]
pub struct Documentation;

#[derive(Debug, Clone, Copy, PartialEq, Eq, Hash)]
pub enum Volatility {
    Immutable,
}

/// How many arguments a function takes, and whether it answers the same each time.
#[derive(Debug, Clone, PartialEq, Eq, Hash)]
pub struct Signature {
    arguments: usize,
    volatility: Volatility,
}

impl Signature {
    pub fn any(arguments: usize, volatility: Volatility) -> Self {
        Signature {
            arguments,
            volatility,
        }
    }
}

/// What is added to a call before it is built.
pub struct ExprFuncBuilder {
    call: Expr,
}

impl ExprFuncBuilder {
    pub fn build(self) -> Result<Expr> {
        Ok(self.call)
    }
}

/// Adding an order to a call.
pub trait ExprFunctionExt {
    fn order_by(self, order_by: Vec<SortExpr>) -> ExprFuncBuilder;
}

impl ExprFunctionExt for Expr {
    fn order_by(self, _order_by: Vec<SortExpr>) -> ExprFuncBuilder {
        ExprFuncBuilder { call: self }
    }
}
