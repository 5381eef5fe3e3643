//! Two small things that a planner asks.

/// What an order among the input is good for.
#[derive(Debug, Clone, Copy, PartialEq, Eq)]
pub enum AggregateOrderSensitivity {
    Beneficial,
}

/// The name of a column of an accumulator's state.
pub fn format_state_name(name: &str, state: &str) -> String {
    format!("{name}[{state}]")
}
