//! A small stand-in for the crate of this name: single cells, rows of them, and errors.

pub mod cast;
mod error;
mod scalar;
pub mod utils;

pub use error::{DataFusionError, Result};
pub use scalar::ScalarValue;
