//! The original, compiled from its own two files without an edit against the small crates beside this one.

#![allow(dead_code, mismatched_lifetime_syntaxes, clippy::all)]

/// Makes the function that answers a function of SQL.
macro_rules! create_func {
    ($function:ty, $name:ident) => {
        pub fn $name() -> std::sync::Arc<datafusion_expr::AggregateUDF> {
            std::sync::Arc::new(datafusion_expr::AggregateUDF::from(<$function>::default()))
        }
    };
}

include!(concat!(env!("OUT_DIR"), "/source.rs"));

pub use source::first_last::{first_value_udaf, last_value_udaf};
